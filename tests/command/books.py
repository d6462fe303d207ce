"""books.py PROGRAM FOLDER: a book kept in a file, from its making to commits side by side, damage and a full disk."""
import fcntl
import json
import os
import random
import resource
import signal
import subprocess
import sys
import time

from program import ACCEPTED, FAILED, REFUSED, SHEETS, Program, agree, decimals


def sheet(name):
    return os.path.join(SHEETS, name)


MESH, CLAIM, BELOW, ABOVE = (sheet("worked" + end) for end in (".mesh", ".claim", "_below.claim", "_above.claim"))
TABLE = sheet("table_worked.table")
SIDE_BY_SIDE = 200
EMPTY = b"pechuvo book\nmesh none\nlower none\nupper none\ncount 0\n"


def with_decimals(bound, up):
    return bound if bound == "none" else f"{bound} {decimals(bound, up)}"


def printed(lower, upper, count):
    return f"lower {with_decimals(lower, False)}\nupper {with_decimals(upper, True)}\ncount {count}\n".encode()


def read(path):
    with open(path, "rb") as file:
        return file.read()


def write(path, content):
    with open(path, "wb") as file:
        file.write(content)


class Book:
    """A book's file, and the command on it."""

    def __init__(self, program, path):
        self.program, self.path = program, path

    def tell(self, status, output, *words, **options):
        got = self.program.expect(status, output, "book", self.path, *words, **options)
        agree("what is left beside the book", os.path.exists(self.path + ".new"), False)
        return got

    def keeps(self, status, output, *words, **options):
        """A run that leaves the file as it is."""
        before = read(self.path)
        self.tell(status, output, *words, **options)
        agree(f"{words}: the book's file", read(self.path), before)


def lifecycle(book):
    book.tell(FAILED, b"", "show", errors=f"{book.path}: No such file")
    book.tell(FAILED, b"", "commit", MESH, CLAIM, errors=f"{book.path}: No such file")
    agree("a commit makes no book", os.path.exists(book.path), False)
    book.tell(ACCEPTED, printed("none", "none", 0), "new")
    agree("an empty book", read(book.path), EMPTY)
    book.keeps(FAILED, b"", "new", errors=f"{book.path}: File exists")
    book.keeps(ACCEPTED, printed("none", "none", 0), "show")
    book.keeps(ACCEPTED, printed("19/1", "600/30", 1), "ask", MESH, BELOW)
    book.keeps(REFUSED, printed("none", "none", 0), "commit", MESH, ABOVE, errors=f"{ABOVE}: refused with 22, row 1")
    book.tell(ACCEPTED, printed("19/1", "600/30", 1), "commit", MESH, BELOW, "--count", "0")
    book.keeps(REFUSED, printed("19/1", "600/30", 1), "commit", MESH, CLAIM, "--count", "0",
               errors=f"{book.path}: refused with 48: the book takes no such call: the named count differs")
    book.keeps(ACCEPTED, printed("20/1", "600/30", 2), "ask", MESH, CLAIM)
    book.tell(ACCEPTED, printed("20/1", "600/30", 2), "commit", MESH, CLAIM, "--count=1")
    several, refusal = [MESH, BELOW, ABOVE, BELOW], f"{ABOVE}: refused with 22"
    book.tell(REFUSED, printed("20/1", "600/30", 4), "commit", *several, errors=refusal)
    book.keeps(REFUSED, printed("20/1", "600/30", 6), "ask", *several, errors=refusal)
    book.keeps(FAILED, b"", "commit", MESH, CLAIM, book.path + ".absent", errors="absent: No such file")


def other_meshes(book):
    """A book with a commit in it is one of a mesh and a table."""
    for words in ([sheet("seam.mesh"), sheet("seam.claim")], [MESH, CLAIM, "--table", TABLE]):
        for call in ("ask", "commit"):
            book.keeps(FAILED, b"", call, *words, errors=f"{book.path}: this book is for another mesh")
    write(book.path, EMPTY)
    book.tell(ACCEPTED, printed("20/1", "600/30", 1), "commit", MESH, CLAIM, "--table", TABLE)
    book.keeps(FAILED, b"", "commit", MESH, CLAIM, errors="for another mesh")
    book.tell(ACCEPTED, printed("20/1", "600/30", 2), "commit", MESH, CLAIM, "--table", TABLE)
    # On a mesh that lists a soil of kind 1 no carried load is told.
    write(book.path, EMPTY)
    bedded = [sheet("bedded_unused" + end) for end in (".mesh", ".claim")]
    book.tell(ACCEPTED, printed("none", "600/30", 1), "commit", *bedded)


def usage(book):
    write(book.path, EMPTY)
    for words, said in (([], "book: a book, then new"), (["keep"], "keep: a book can be told"),
                        (["ask"], "ask: a mesh and a claim"), (["commit", MESH], "commit: a mesh and a claim"),
                        (["show", MESH], "show: nothing but"), (["new", "--table", TABLE], "new: nothing but"),
                        (["show", "--count", "0"], "show: nothing but"),
                        (["ask", MESH, CLAIM, "--count", "0"], "--count: it goes with a commit of one claim"),
                        (["commit", MESH, CLAIM, CLAIM, "--count", "0"], "--count: it goes with a commit of one"),
                        (["commit", MESH, CLAIM, "--count", "many"], "many: --count asks for a whole number"),
                        (["commit", MESH, CLAIM, "--count", "00"], "00: --count asks for a whole number"),
                        (["commit", MESH, CLAIM, "--count", "18446744073709551616"], "--count asks for a whole"),
                        (["commit", book.path + ".absent", CLAIM], "absent: No such file")):
        book.keeps(FAILED, b"", *words, errors=said)


def json_output(book):
    write(book.path, EMPTY)
    told = json.loads(book.tell(REFUSED, None, "commit", MESH, CLAIM, ABOVE, "--json"))
    members = ("book", "lower", "lower_decimal", "upper", "upper_decimal", "count")
    agree("a commit as JSON", [told[member] for member in members],
          [book.path, "20/1", "20.000000", "600/30", "20.000000", 1])
    agree("its claims", [[claim["claim"], claim["number"], claim["place"], claim["kind"]] for claim in told["claims"]],
          [[CLAIM, 0, 0, "none"], [ABOVE, 22, 1, "row"]])
    write(book.path, EMPTY)
    agree("an empty book as JSON", json.loads(book.tell(ACCEPTED, None, "show", "--json")),
          {"book": book.path, "lower": None, "lower_decimal": None, "upper": None, "upper_decimal": None, "count": 0})


def text(mesh="none", lower="none", upper="none", count="0"):
    return f"pechuvo book\nmesh {mesh}\nlower {lower}\nupper {upper}\ncount {count}\n".encode()


def strict(book):
    """Whatever is not just what the command writes is no book, and is left as it is."""
    good = text("00000000000000ff", "-1/3", "9223372036854775807/1", "999999")
    write(book.path, good)
    book.keeps(ACCEPTED, printed("-1/3", "9223372036854775807/1", 999999), "show")
    agree("decimals", printed("-1/3", "1/3", 2), b"lower -1/3 -0.333334\nupper 1/3 0.333334\ncount 2\n")
    damage = [(1, b""), (1, good[1:]), (1, good.upper()), (1, good.replace(b"\n", b"\r\n")), (1, read(MESH)),
              (1, b"\xef\xbb\xbf" + good), (6, good + b"\n"), (6, good + b"\0"), (6, good + good),
              (6, good + b" " * 100000), (5, good[:-1]), (5, good[:-8]), (4, good[:60]), (3, good[:40]),
              (2, good[:20])]
    damage += [(2, text(mesh=mesh)) for mesh in (
        "", "0", "000000000000000g", "00000000000000FF", "00000000000000ff0", "None")]
    for line, bound in ((3, "lower"), (4, "upper")):
        damage += [(line, text(**{bound: value})) for value in (
            "", "1", "1/", "/1", "01/1", "1/+1", "-0/1", "1/1/1", "1 /1", "9223372036854775808/1", "none ", "1.0/1",
            "x" * 60)]
    damage += [(5, text(count=count)) for count in ("", "-1", "+1", "01", "1e3", "18446744073709551616")]
    for line, content in damage:
        write(book.path, content)
        for words in (["show"], ["ask", MESH, CLAIM], ["commit", MESH, CLAIM]):
            book.keeps(FAILED, b"", *words, errors=f"{book.path}: line {line} is not one of a book")


def takes_none(book):
    """Books that are well written and get 48."""
    for lower, upper, count in (("none", "none", 1000000), ("1/0", "none", 0), ("none", "1/-1", 0),
                                ("none", "none", 18446744073709551615)):
        write(book.path, text("none", lower, upper, str(count)))
        for call in ("ask", "commit"):
            book.keeps(REFUSED, printed(lower, upper, count), call, MESH, CLAIM,
                       errors="refused with 48: the book takes no such call")
    write(book.path, text(count="999999"))
    book.tell(REFUSED, printed("20/1", "600/30", 1000000), "commit", MESH, CLAIM, CLAIM, errors="refused with 48")


def start(book, *words, **options):
    """A commit that runs on."""
    return subprocess.Popen([book.program.path, "book", book.path, "commit", *words], stdout=subprocess.DEVNULL,
                            **options)


def count_of(book):
    return json.loads(book.tell(ACCEPTED, None, "show", "--json"))["count"]


def side_by_side(book):
    """Commits at the same time: none is lost."""
    write(book.path, EMPTY)
    running = [start(book, MESH, CLAIM) for _ in range(SIDE_BY_SIDE)]
    agree("commits side by side", [each.wait() for each in running], [ACCEPTED] * SIDE_BY_SIDE)
    book.keeps(ACCEPTED, printed("20/1", "600/30", SIDE_BY_SIDE), "show")


def left_behind(book):
    """The new file of a command that was broken off, whatever it wrote of it."""
    write(book.path, EMPTY)
    whole = text("00000000000000ff", "19/1", "600/30", "7")
    for count, content in enumerate((b"", whole[:30], whole, b"\0" * len(whole)), start=1):
        write(book.path + ".new", content)
        book.program.expect(ACCEPTED, None, "book", book.path, "ask", MESH, CLAIM)
        agree("an ask leaves the new file", read(book.path + ".new"), content)
        book.tell(ACCEPTED, printed("20/1", "600/30", count), "commit", MESH, CLAIM)
    # What no command can have left stays.
    before = read(book.path)
    for make, remove in ((lambda name: write(name, b"x" * 192), os.remove), (os.mkdir, os.rmdir),
                         (lambda name: os.symlink(MESH, name), os.remove)):
        make(book.path + ".new")
        book.program.expect(FAILED, b"", "book", book.path, "commit", MESH, CLAIM,
                            errors=f"{book.path}.new: the new book is written here first")
        agree("a book beside a file of another kind", read(book.path), before)
        remove(book.path + ".new")


def is_locked(path):
    with open(path, "rb") as file:
        try:
            fcntl.flock(file, fcntl.LOCK_EX | fcntl.LOCK_NB)
        except BlockingIOError:
            return True
    return False


def waits(book):
    """A living command is waited for, and that is said after a while."""
    write(book.path, EMPTY)
    with open(book.path, "rb") as other:
        fcntl.flock(other, fcntl.LOCK_EX)
        running = start(book, MESH, CLAIM, stderr=subprocess.PIPE)
        said = running.stderr.readline()
        agree("a commit that waits", (running.poll(), read(book.path)), (None, EMPTY))
        book.keeps(ACCEPTED, printed("20/1", "600/30", 1), "ask", MESH, CLAIM)
    agree("a commit that waited", (running.wait(), said, running.stderr.read()), (
        ACCEPTED, f"pechuvo: {book.path}: another command writes this book; waiting for it\n".encode(), b""))
    book.keeps(ACCEPTED, printed("20/1", "600/30", 1), "show")


def broken_off(book):
    """Commands that are killed: one that has the lock, and many at any time."""
    claim = book.path + ".claim"
    os.mkfifo(claim)
    running = start(book, MESH, claim)
    while not is_locked(book.path):
        time.sleep(0.01)
    running.kill()
    agree("a commit that was killed", running.wait(), -signal.SIGKILL)
    os.remove(claim)
    book.tell(ACCEPTED, printed("20/1", "600/30", 2), "commit", MESH, CLAIM)
    accepted, all_of_them = 2, [start(book, MESH, CLAIM) for _ in range(SIDE_BY_SIDE)]
    for each in all_of_them[::2]:
        time.sleep(random.random() / 500)
        each.send_signal(random.choice((signal.SIGKILL, signal.SIGTERM)))
    accepted += sum(each.wait() == ACCEPTED for each in all_of_them)
    book.program.expect(ACCEPTED, None, "book", book.path, "commit", MESH, CLAIM)
    agree("commits that were not lost", accepted < count_of(book) <= 3 + SIDE_BY_SIDE, True)


def places(book):
    """A book behind a link, one that few may read, and names that are no book's."""
    write(book.path, EMPTY)
    folder = os.path.dirname(book.path)
    os.chmod(book.path, 0o640)
    link = os.path.join(folder, "link.book")
    os.symlink(os.path.basename(book.path), link)
    book.program.expect(ACCEPTED, printed("20/1", "600/30", 1), "book", link, "commit", MESH, CLAIM)
    agree("a link stays one", os.path.islink(link), True)
    agree("who may read", os.stat(book.path).st_mode & 0o777, 0o640)
    book.keeps(ACCEPTED, printed("20/1", "600/30", 1), "show")
    book.program.expect(FAILED, b"", "book", folder, "commit", MESH, CLAIM, errors=f"{folder}: Is a directory")
    book.program.expect(FAILED, b"", "book", folder, "new", errors=f"{folder}: ")
    book.program.expect(FAILED, b"", "book", "absent/book", "new", folder=folder, errors="absent/book: No such file")
    book.program.expect(FAILED, b"", "book", MESH, "commit", MESH, CLAIM, errors=f"{MESH}: line 1 is not one of a")


def no_room():
    """No file may grow, as on a full disk."""
    signal.signal(signal.SIGXFSZ, signal.SIG_IGN)
    resource.setrlimit(resource.RLIMIT_FSIZE, (0, 0))


def full_disk(book):
    book.keeps(FAILED, b"", "commit", MESH, CLAIM, errors=f"{book.path}.new: File too large", preexec_fn=no_room)
    other = book.path + ".other"
    book.program.expect(FAILED, b"", "book", other, "new", errors=f"{other}: File too large", preexec_fn=no_room)
    agree("a book that has no room", os.path.exists(other), False)


def main():
    program = Program(sys.argv[1])
    book = Book(program, os.path.join(os.path.realpath(sys.argv[2]), "job.book"))
    for test in (lifecycle, other_meshes, usage, json_output, strict, takes_none, side_by_side, left_behind, waits,
                 broken_off, places, full_disk):
        test(book)
    print(f"{program.runs} runs on books, each as expected")


main()
