"""mistakes.py PROGRAM FOLDER: what a user mistypes, files that are not what they should be, streams that are full."""
import json
import os
import subprocess
import sys

from program import ACCEPTED, FAILED, REFUSED, SHEETS, Program, agree

MESH, CLAIM, ABOVE = (os.path.join(SHEETS, name) for name in ("worked.mesh", "worked.claim", "worked_above.claim"))
TABLE = os.path.join(SHEETS, "table_worked.table")
MOST_BYTES = 65536


def line(*columns):
    """A report line without its byte 10."""
    return "".join(f"{column:>28}" for column in columns).encode()


def refused(number, place):
    """A refused claim's line, its byte 10 included."""
    return line(number, place, "none", "none") + b"\n"


WORKED = line(0, 0, "20.000000", "20.000000")
IS_ABOVE = line(22, 1, "none", "none")


def write(folder, name, content):
    path = os.path.join(folder, name)
    with open(path, "wb") as file:
        file.write(content)
    return path


def read(path):
    with open(path, "rb") as file:
        return file.read()


def said_once(program, status, output, what, *words):
    """A run that says one thing on standard error, on one line."""
    got = program.run(*words)
    agree(words, (got[0], got[1] if output is None else output, got[2].decode()),
          (status, got[1], f"pechuvo: {what}\n"))


def changed(folder, line, column, number, source=MESH):
    """A file with another number in a column of a line, both from 1."""
    lines = read(source).split(b"\n")
    text = lines[line - 1]
    lines[line - 1] = text[:12 * (column - 1)] + f"{number:12}".encode() + text[12 * column:]
    return write(folder, "changed", b"\n".join(lines))


def usage(program):
    help_text = program.expect(ACCEPTED, None, "--help")
    agree("no arguments", program.run(), (FAILED, b"", help_text))
    for command in ("check", "run", "sizes", "book"):
        agree(f"--help tells of {command}", f"pechuvo {command} ".encode() in help_text, True)
        program.expect(ACCEPTED, help_text, command, "--help")
        program.expect(FAILED, b"", command, errors=f"pechuvo: {command}: ")
        program.expect(FAILED, b"", command, MESH, CLAIM, CLAIM, "--no-such", errors="--no-such: ")
    agree("--version", program.expect(ACCEPTED, None, "--version").split()[0], b"pechuvo")
    for words in (["-h"], ["help"], ["help", "check"], ["check", "-h"], ["book", "-h"]):
        program.expect(ACCEPTED, help_text, *words)
    program.expect(FAILED, b"", "check", "--", MESH, "-h", errors="-h: No such file")
    for word, shown in (("explain", "explain"), ("--json", "--json"), ("-help", "-help"), ("", "''")):
        program.expect(FAILED, b"", word, errors=f"pechuvo: {shown}: no such command")
    program.expect(FAILED, b"", "check", MESH, errors="check: a mesh and at least one claim")
    program.expect(FAILED, b"", "run", MESH, errors="run: a mesh and one file of claims")
    program.expect(FAILED, b"", "run", MESH, CLAIM, CLAIM, errors="run: a mesh and one file of claims")
    program.expect(FAILED, b"", "sizes", MESH, CLAIM, errors="sizes: one mesh")


def options(program):
    one = ["check", MESH, CLAIM]
    for count in ("x", "", "+3", "03", "3.0", " 3", "9223372036854775808"):
        program.expect(FAILED, b"", *one, "--decimals", count, errors="--decimals asks for a whole number")
    for count in ("8", "-1", "9223372036854775807", "-9223372036854775808"):
        for words in (one, [*one, CLAIM, ABOVE]):
            said_once(program, FAILED, b"", "--decimals: number of decimals other than 0 to 7",
                      *words, "--decimals", count)
    program.expect(FAILED, b"", *one, "--decimals", errors="--decimals: its value is missing")
    program.expect(FAILED, b"", *one, "--decimals", "3", "--decimals=3", errors="--decimals=3: given twice")
    program.expect(FAILED, b"", *one, "--table", TABLE, "--table", TABLE, errors="--table: given twice")
    program.expect(FAILED, b"", *one, "--json", "--json", errors="--json: given twice")
    program.expect(FAILED, b"", *one, "--json=yes", errors="--json=yes: this option takes no value")
    program.expect(FAILED, b"", *one, "--count", "1", errors="--count: this command has no such option")
    program.expect(FAILED, b"", "run", MESH, CLAIM, "--decimals", "3", errors="--decimals: this command has no")
    for words in (["check", "--decimals=0", MESH, CLAIM], ["check", MESH, "--decimals", "0", "--", CLAIM]):
        program.expect(ACCEPTED, line(0, 0, "20", "20") + b"\n", *words)


def names(program, folder):
    """Names that begin with a minus, end a line, or are no text."""
    for name in ("-claim", "--json", "--"):
        write(folder, name, read(CLAIM))
        program.expect(ACCEPTED, WORKED + b"\n", "check", "--", MESH, name, folder=folder)
    program.expect(FAILED, b"", "check", MESH, "-claim", folder=folder, errors="-claim: this command has no such")
    program.expect(ACCEPTED, WORKED + b"\n", "check", MESH, "./-claim", folder=folder)
    program.expect(FAILED, b"", "check", MESH, "-", folder=folder, errors="pechuvo: -: ")
    program.expect(FAILED, b"", "check", MESH, "", errors="pechuvo: '': ")
    strange = os.path.join(os.fsencode(folder), b"a\nb\"\\\xff\xc3\xa9")
    write(os.fsencode(folder), strange, read(CLAIM))
    shown = os.fsencode(folder) + b"/a?b\"\\\xff\xc3\xa9"
    program.expect(ACCEPTED, WORKED + b" " + shown + b"\n" + WORKED + b" " + CLAIM.encode() + b"\n",
                   "check", MESH, strange, CLAIM)
    told = json.loads(program.expect(ACCEPTED, None, "check", MESH, strange, "--json"))
    agree("a strange name as JSON", told["claim"], folder + "/a\nb\"\\\ufffd\u00e9")


def files(program, folder):
    program.expect(REFUSED, refused(1, 1), "check", CLAIM, MESH, errors=f"{CLAIM}: refused with 1, line 1: ")
    program.expect(REFUSED, refused(1, 1001), "check", MESH, CLAIM, "--table", CLAIM,
                   errors=f"{CLAIM}: refused with 1, line 1001: ")
    program.expect(REFUSED, refused(45, 4), "check", MESH, CLAIM, "--table",
                   os.path.join(SHEETS, "table_gap.table"), errors="table_gap.table: refused with 45, height 4: ")
    program.expect(ACCEPTED, WORKED + b"\n", "check", MESH, CLAIM, "--table", "/dev/null")
    absent = os.path.join(folder, "absent")
    for words in (["check", absent, CLAIM], ["check", MESH, absent], ["check", MESH, CLAIM, "--table", absent],
                  ["run", absent, CLAIM], ["run", MESH, absent], ["sizes", absent]):
        program.expect(FAILED, b"", *words, errors=f"{absent}: No such file")
    for words in (["check", folder, CLAIM], ["check", MESH, folder], ["run", MESH, folder], ["sizes", folder]):
        program.expect(FAILED, b"", *words, errors=f"{folder}: Is a directory")
    closed = write(folder, "closed", read(CLAIM))
    os.chmod(closed, 0)
    if not os.access(closed, os.R_OK):
        program.expect(FAILED, b"", "check", MESH, closed, errors=f"{closed}: Permission denied")
    # Bytes go to the archive as they are: a file with other line ends is refused.
    for source, number, at in ((MESH, 1, 0), (CLAIM, 11, 1)):
        words = [MESH, CLAIM]
        words[at] = write(folder, "lines", read(source).replace(b"\n", b"\r\n"))
        program.expect(REFUSED, refused(number, 1), "check", *words,
                       errors=f"{words[at]}: refused with {number}, line 1: ")
    # A part that can't be read does not keep the others from being checked.
    program.expect(FAILED, WORKED + b" " + CLAIM.encode() + b"\n" + IS_ABOVE + b" " + ABOVE.encode() + b"\n",
                   "check", MESH, CLAIM, absent, ABOVE,
                   errors=[f"{absent}: No such file", f"{ABOVE}: refused with 22, row 1"])


def says(program, folder):
    """What is said of a refusal: once for all claims where it is the mesh's, no more than the line can have wrong, and
    a hint where a table is missing or stands where a claim should."""
    limit, slope = "mesh number outside its limits", os.path.join(SHEETS, "table_slope")
    counts = limit + ": the count of nodes, elements, soils, edges, sides or jumps; with 108 sides at most 40 nodes"
    of_108 = os.path.join(SHEETS, "footing_108.mesh")
    for place, column, number, source, words in (
            (1, 5, 13, MESH, counts), (1, 1, 41, of_108, counts), (2, 9, 2, MESH, limit), (3, 1, 1001, MESH, limit),
            (2, 9, 1, of_108, limit + "; or a soil of kind 1 on a mesh with 108 sides"), (4, 2, -1, of_108, limit)):
        mesh = changed(folder, place, column, number, source)
        for claims in ([CLAIM], [CLAIM, ABOVE, CLAIM]):
            said_once(program, REFUSED, None, f"{mesh}: refused with 2, line {place}: {words}",
                      "check", mesh, *claims)
            told = program.expect(REFUSED, None, "check", mesh, *claims, "--json").splitlines()
            agree(f"{place} as JSON", [json.loads(each)["says"] for each in told], [words] * len(claims))
        said_once(program, REFUSED, None, f"{mesh}: refused with 2, line {place}: {words}", "sizes", mesh)
    table = changed(folder, 1, 2, 2001, TABLE)
    said_once(program, REFUSED, None, f"{table}: refused with 2, line 1001: table number outside its limits",
              "check", MESH, CLAIM, CLAIM, "--table", table)
    mesh, claim, table = (slope + end for end in (".mesh", ".claim", ".table"))
    missing = f"{mesh}: refused with 4, line 21: names a node or soil that isn't there"
    book = os.path.join(folder, "hint.book")
    program.expect(ACCEPTED, None, "book", book, "new")
    for given in (["check", mesh, claim], ["check", mesh, claim, table],
                  ["check", mesh, claim, "--table", "/dev/null"], ["sizes", mesh],
                  ["book", book, "ask", mesh, claim, claim]):
        said_once(program, REFUSED, None, f"{missing}; soil 0 needs --table", *given)
    program.expect(REFUSED, None, "run", mesh, claim, errors=f"{missing}; soil 0 needs --table\n")
    told = json.loads(program.expect(REFUSED, None, "book", book, "ask", mesh, claim, "--json"))
    agree("a book as JSON", told["claims"][0]["says"], missing.split(": ")[-1] + "; soil 0 needs --table")
    # Another soil or node that isn't there, and soil 0 with a table, have no hint.
    for column, number, with_table in ((5, 4, []), (1, 99, ["--table", table])):
        other = changed(folder, 21, column, number, mesh)
        said_once(program, REFUSED, None, missing.replace(mesh, other), "check", other, claim, *with_table)
    hint = f"{table}: this looks like a table, and --table takes one"
    program.expect(REFUSED, None, "check", MESH, CLAIM, table, errors=[f"{table}: refused with 11, line 1", hint])
    for other in (MESH, write(folder, "empty", b"")):
        said_once(program, REFUSED, None, f"{other}: refused with 11, line 1: claim form", "check", MESH, other)


def lengths(program, folder):
    """Long files get what their first 65,536 bytes get; one without an end is read so far and no further."""
    for size in (MOST_BYTES - 1, MOST_BYTES, MOST_BYTES + 1, 2 * MOST_BYTES):
        mesh = write(folder, "long.mesh", read(MESH).ljust(size, b" "))
        program.expect(REFUSED, refused(1, 11), "check", mesh, CLAIM, errors=f"{mesh}: refused with 1, line 11")
        program.expect(REFUSED, b"number 1\nplace 11\n", "sizes", mesh, errors=f"{mesh}: refused with 1, line 11")
        claim = write(folder, "long.claim", read(CLAIM).ljust(size, b"0"))
        program.expect(REFUSED, refused(11, 14), "check", MESH, claim, errors=f"{claim}: refused with 11, line 14")
    program.expect(REFUSED, refused(1, 1), "check", "/dev/zero", CLAIM, errors="/dev/zero: refused")
    program.expect(REFUSED, refused(11, 1), "check", MESH, "/dev/zero", errors="/dev/zero: refused")
    program.expect(ACCEPTED, WORKED + b"\n", "check", MESH, "/dev/stdin", input=read(CLAIM))


def runs(program, folder):
    """Claims in more than one part: as many as are handed over at once, one fewer and one more, and large ones."""
    good, above, bad = read(CLAIM), read(ABOVE), read(CLAIM)[:-1]
    for count in (1, 63, 64, 65, 128, 200):
        claims = write(folder, "claims", good * count)
        program.expect(ACCEPTED, (WORKED + b"\n") * count, "run", MESH, claims,
                       errors=f"{claims}: reports {count}, bytes taken {count * len(good)}, none is left over")
        claims = write(folder, "claims", good * (count - 1) + above)
        program.expect(REFUSED, (WORKED + b"\n") * (count - 1) + IS_ABOVE + b"\n", "run", MESH, claims,
                       errors=[f"claim {count}: refused with 22", "none is left over"])
        for end in (bad, b"x" * 100, b"x" * 100 + good * 100):
            claims = write(folder, "claims", good * (count - 1) + end)
            got = program.run("run", MESH, claims)
            agree("a run that ends: status", got[0], REFUSED)
            agree("a run that ends: reports", got[1].count(b"\n"), count)
            piece = f"reports {count}, bytes taken {(count - 1) * len(good)}, more are left over".encode()
            agree(f"a run that ends: {piece!r}", piece in got[2], True)
    large, claim = (os.path.join(SHEETS, "footing_108" + ending) for ending in (".mesh", ".claim"))
    one = program.run("check", large, claim)[1]
    count = 400
    claims = write(folder, "claims", read(claim) * count)
    program.expect(ACCEPTED, one * count, "run", large, claims, errors=f"reports {count}, bytes taken {count * 47780}")
    os.remove(claims)
    got = program.run("run", MESH, "/dev/stdin", "--json", input=good + above + bad)[1]
    told = [json.loads(text) for text in got.splitlines()]
    agree("a run as JSON: numbers", [each.get("number") for each in told], [0, 22, 11, None])
    agree("a run as JSON: places", [each.get("which") for each in told], [1, 2, 3, None])
    agree("a run as JSON: end", told[-1],
          {"claims": "/dev/stdin", "reports": 3, "bytes": 2 * len(good), "left_over": True})
    program.expect(FAILED, b"", "run", MESH, "/dev/null", errors="/dev/null: no claim is in it")
    program.expect(REFUSED, refused(1, 1), "run", CLAIM, "/dev/null", errors=f"{CLAIM}: refused with 1")


def streams(program, folder):
    with open("/dev/full", "wb") as full:
        for words in (["check", MESH, CLAIM], ["check", MESH, CLAIM, "--json"], ["run", MESH, CLAIM], ["sizes", MESH],
                      ["--help"], ["--version"], ["check", MESH, *[CLAIM] * 500]):
            program.expect(FAILED, None, *words, stdout=full, errors="standard output: ")
    # A closed standard output is no file of the command's own.
    book = os.path.join(folder, "closed.book")
    for words in (["check", MESH, CLAIM], ["book", book, "new"], ["book", book, "commit", MESH, CLAIM]):
        done = subprocess.run(["bash", "-c", '"$@" >&-', "bash", program.path, *words], stderr=subprocess.PIPE,
                              check=False)
        agree(f"{words} with a closed output", (done.returncode, b"standard output: " in done.stderr), (FAILED, True))
        agree(f"{words}: what is done", b"; the book is written\n" in done.stderr, words[0] == "book")
    program.expect(ACCEPTED, b"lower 20/1 20.000000\nupper 600/30 20.000000\ncount 1\n", "book", book, "show")
    # What was not written is not said to be.
    with open("/dev/full", "wb") as full:
        for words, says in ((["commit", MESH, CLAIM], "; the book is written\n"),
                            (["commit", MESH, ABOVE], "No space left on device\n"),
                            (["ask", MESH, CLAIM], "No space left on device\n"),
                            (["show"], "No space left on device\n")):
            program.expect(FAILED, None, "book", book, *words, stdout=full, errors=["standard output: ", says])
    program.expect(ACCEPTED, b"lower 20/1 20.000000\nupper 600/30 20.000000\ncount 2\n", "book", book, "show")


def main():
    program, folder = Program(sys.argv[1]), sys.argv[2]
    usage(program)
    options(program)
    names(program, folder)
    files(program, folder)
    says(program, folder)
    lengths(program, folder)
    runs(program, folder)
    streams(program, folder)
    print(f"{program.runs} runs on mistakes, each as expected")


main()
