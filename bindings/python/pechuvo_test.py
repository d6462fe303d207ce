#!/usr/bin/env python3
"""Holds pechuvo.py to the sheets and cases of this repository, and to what its own text promises. The library is where
pechuvo.py finds it."""

import array
import mmap
import os
import struct
import subprocess
import sys
import tempfile
import threading
import time
import unittest
from fractions import Fraction
from pathlib import Path

import pechuvo

HERE = Path(__file__).resolve().parent
SHEETS = HERE.parents[1] / "sheets"
CASES = HERE.parents[1] / "tests" / "vectors" / "cases"
FIELD_AND_MULTIPLIERS = b"           1           1"
FIELD_ALONE = b"           1           0"


def table_of(path):
    """The lines of a table of expected answers, cut at tabs."""
    return [line.split("\t") for line in path.read_text(encoding="ascii").splitlines()]


def part(folder, name, end):
    """A file of a sheet or a case; a table that isn't there is empty."""
    path = folder / f"{name}.{end}"
    return path.read_bytes() if end != "table" or path.exists() else b""


def sheet(name, folder=SHEETS):
    """Mesh, claim and table."""
    return [part(folder, name, end) for end in ("mesh", "claim", "table")]


def sheet_names():
    return sorted(path.stem for path in SHEETS.glob("*.mesh"))


def told(verdict):
    return str(verdict.number), str(verdict.place)


def told_with_kind(verdict):
    return (*told(verdict), verdict.kind or "none")


def line_of(answer):
    return "-" if answer.report is None else answer.report.decode("ascii").rstrip("\n")


def sizes_of(sizes):
    numbers = (sizes.balance_rows, sizes.side_rows, sizes.jump_rows, sizes.strength_rows, sizes.columns,
               sizes.field_bytes, sizes.multipliers_bytes, sizes.both_bytes)
    return [str(number) for number in numbers] if sizes.accepted else ["-"]


def field_claim(name):
    """The field of a sheet's claim that has both parts, as a claim of its own."""
    mesh, claim, table = sheet(name)
    assert claim.startswith(FIELD_AND_MULTIPLIERS)
    alone = FIELD_ALONE + claim[len(FIELD_ALONE):]
    return mesh, alone[: pechuvo.mesh_sizes(mesh, table).field_bytes], table


class Sheets(unittest.TestCase):
    def test_every_sheet_has_its_line(self):
        lines = [f"{name} {line_of(pechuvo.check(*sheet(name)))}" for name in sheet_names()]
        self.assertEqual(lines, (SHEETS / "expected").read_text(encoding="ascii").splitlines())
        self.assertGreaterEqual(len(lines), 100)

    def test_the_answer_is_that_of_its_line(self):
        for name in sheet_names():
            answer = pechuvo.check(*sheet(name))
            number, place, lower, upper = answer.report.decode("ascii").split()
            self.assertEqual(answer.accepted, number == "0")
            if not answer.accepted:
                self.assertEqual((*told(answer), "none", "none"), (number, place, lower, upper))

    def test_numbers_get_what_files_get(self):
        for name in sheet_names():
            files = sheet(name)
            answer = pechuvo.check(*files)
            loads = pechuvo.check_numbers(*([int(word) for word in file.split()] for file in files))
            self.assertEqual(told_with_kind(loads), told_with_kind(answer))
            book = pechuvo.Book().ask(*files).book
            self.assertEqual((loads.lower, loads.upper), (book.lower, book.upper))
            if answer.accepted:
                open_rows = "none" if loads.open_rows is None else str(loads.open_rows)
                self.assertEqual(open_rows, answer.report.split()[1].decode("ascii"))

    def test_decimals(self):
        for name, decimals, number, place, line in table_of(SHEETS / "decimals"):
            answer = pechuvo.check(*sheet(name), decimals=int(decimals))
            self.assertEqual((*told(answer), line_of(answer)), (number, place, line))

    def test_sizes_and_lengths(self):
        for name, *expected in table_of(SHEETS / "sizes"):
            mesh, claim, table = sheet(name)
            sizes = pechuvo.mesh_sizes(mesh, table)
            self.assertEqual([*told_with_kind(sizes), *sizes_of(sizes)], expected)
            lengths = (0, sizes.field_bytes, sizes.multipliers_bytes, sizes.both_bytes)
            self.assertIn(len(claim), lengths if sizes.accepted else [len(claim)])


class Cases(unittest.TestCase):
    """The cases of tests/vectors, which were made by a program of another make."""

    def test_files(self):
        for name, number, place, line, kind, room, decimals, _ in table_of(CASES / "expected"):
            if int(room) < pechuvo.REPORT:
                continue  # This module always lends a whole line.
            answer = pechuvo.check(*sheet(name, CASES), decimals=int(decimals))
            self.assertEqual((*told_with_kind(answer), line_of(answer)), (number, place, kind, line), name)

    def test_numbers(self):
        for name, number, place, kind, l, n, w, m, open_rows in table_of(CASES / "numbers" / "expected"):
            lists = (CASES / "numbers" / f"{name}.txt").read_text(encoding="ascii").split("\n")[:3]
            loads = pechuvo.check_numbers(*([int(word) for word in line.split()] for line in lists))
            self.assertEqual(told_with_kind(loads), (number, place, kind), name)
            self.assertEqual(loads.lower, None if l == "-" else Fraction(int(l), int(n)), name)
            self.assertEqual(loads.upper, None if w == "-" else Fraction(int(w), int(m)), name)
            self.assertEqual(loads.open_rows, None if open_rows == "-" else int(open_rows), name)

    def test_runs(self):
        for folder in (CASES / "runs", SHEETS / "runs"):
            for name, room, reports, taken in table_of(folder / "expected"):
                mesh, claims, table = (part(folder, name, end) for end in ("mesh", "claims", "table"))
                run = pechuvo.check_run(mesh, claims, table, most=int(room) // pechuvo.REPORT)
                self.assertEqual((len(run.answers), run.taken), (int(reports), int(taken)), name)
                self.assertEqual(b"".join(answer.report for answer in run.answers), part(folder, name, "out"), name)

    def test_sizes(self):
        for name, *expected in table_of(CASES / "sizes"):
            mesh, _, table = sheet(name, CASES)
            sizes = pechuvo.mesh_sizes(mesh, table)
            self.assertEqual([*told_with_kind(sizes), *sizes_of(sizes)], expected, name)

    def test_books(self):
        held = 0
        for name, call, before, count, which, number, place, after in table_of(CASES / "book" / "expected"):
            try:
                book, expected = book_of(before), book_of(after)
            except ValueError:
                continue  # A Fraction has a denominator above 0.
            mesh, claim, table = (part(CASES / "book", name, end) for end in ("mesh", f"{which}.claim", "table"))
            if call == "ask":
                answer = book.ask(mesh, claim, table)
            else:
                # A count below 0 is one that no book has.
                answer = book.commit(int(count) % 2**64, mesh, claim, table)
            self.assertEqual((*told(answer), answer.book), (number, place, expected), name)
            held += 1
        self.assertGreater(held, 100)

    def test_strengths(self):
        for *trials, number, bits in table_of(CASES / "strength"):
            answer = pechuvo.next_strength(*(struct.unpack(">d", bytes.fromhex(word))[0] for word in trials))
            strength = "-" if answer.strength is None else struct.pack(">d", answer.strength).hex()
            self.assertEqual((*told(answer), strength), (number, "0", bits))


def book_of(text):
    lower, upper, count = text.split(",")
    return pechuvo.Book(bound_of(lower), bound_of(upper), int(count))


def bound_of(text):
    if text == "none":
        return None
    above, below = map(int, text.split("/"))
    if below <= 0:
        raise ValueError(text)
    return Fraction(above, below)


class Runs(unittest.TestCase):
    def claims(self):
        mesh = part(SHEETS, "worked", "mesh")
        names = [name for name in sheet_names() if part(SHEETS, name, "mesh") == mesh]
        self.assertGreaterEqual(len(names), 4)
        return mesh, [part(SHEETS, name, "claim") for name in names]

    def test_answers_are_those_of_single_calls(self):
        mesh, claims = self.claims()
        run = pechuvo.check_run(mesh, b"".join(claims))
        self.assertEqual(run.answers, tuple(pechuvo.check(mesh, claim) for claim in claims))
        self.assertEqual(run.taken, sum(map(len, claims)))

    def test_every_sheet_three_times(self):
        for name in sheet_names():
            mesh, claim, table = sheet(name)
            single = pechuvo.check(mesh, claim, table)
            ends = not pechuvo.mesh_sizes(mesh, table).accepted or single.number in (11, 12, 13)
            expected = pechuvo.Run((single,), 0) if ends else pechuvo.Run((single,) * 3, 3 * len(claim))
            self.assertEqual(pechuvo.check_run(mesh, claim * 3, table), expected)

    def test_a_run_of_many_goes_on_where_it_was_left(self):
        mesh, claims = self.claims()
        left = memoryview(b"".join(claims * 50))
        whole = pechuvo.check_run(mesh, left)
        self.assertEqual(len(whole.answers), 50 * len(claims))
        answers = []
        while len(left):
            run = pechuvo.check_run(mesh, left, most=7)
            answers.extend(run.answers)
            left = left[run.taken:]
        self.assertEqual(tuple(answers), whole.answers)

    def test_a_refused_claim_ends_it(self):
        mesh, claims = self.claims()
        for last, number in ((claims[0][:-1], 11), (b"x", 11), (FIELD_ALONE, 11)):
            run = pechuvo.check_run(mesh, claims[0] + last)
            self.assertEqual([answer.number for answer in run.answers], [0, number])
            self.assertEqual(run.taken, len(claims[0]))


class Books(unittest.TestCase):
    def test_a_week(self):
        """What the ask tells is what the commit leaves; the count guards against a commit in between."""
        book = pechuvo.Book()
        for name, number, lower, upper, count in (
            ("worked_below", 0, 19, 20, 1),
            ("worked_above", 22, 19, 20, 1),
            ("worked", 0, 20, 20, 2),
            ("worked_below", 0, 20, 20, 3),
            ("worked_column", 32, 20, 20, 3),
        ):
            files = sheet(name)
            asked = book.ask(*files)
            committed = book.commit(book.count, *files)
            self.assertEqual(asked, committed)
            self.assertEqual((committed.number, committed.book), (number, pechuvo.Book(lower, upper, count)))
            late = book.commit(book.count + 1, *files)
            self.assertEqual((late.number, late.place, late.book), (48, 0, book))
            book = committed.book

    def test_bounds_at_the_ends_of_64_bits(self):
        book = pechuvo.Book(Fraction(-(2**63)), Fraction(2**63 - 1), 999_999)
        answer = book.ask(*sheet("worked"))
        self.assertEqual((answer.number, answer.book), (0, pechuvo.Book(Fraction(20), Fraction(20), 1_000_000)))
        self.assertEqual(answer.book.ask(*sheet("worked")).number, 48)
        for bound in (Fraction(2**63), Fraction(1, 2**63), Fraction(-(2**63) - 1)):
            with self.assertRaises(OverflowError):
                pechuvo.Book(lower=bound).ask(*sheet("worked"))
        with self.assertRaises(TypeError):
            pechuvo.Book(upper=20.0).ask(*sheet("worked"))

    def test_a_book_is_frozen(self):
        with self.assertRaises(AttributeError):
            pechuvo.Book().count = 1


class HandedOver(unittest.TestCase):
    """What files and numbers may be."""

    def test_bytes_in_every_wrapping(self):
        files = sheet("table_slope")
        expected = pechuvo.check(*files)
        self.assertTrue(expected.accepted)
        for wrap in (bytearray, memoryview, lambda file: memoryview(bytearray(file)), padded, mapped):
            self.assertEqual(pechuvo.check(*map(wrap, files)), expected)

    def test_nothing_is_copied(self):
        """The address that is lent is that of the object itself."""
        data = bytearray(b"0123456789")
        for view in (memoryview(data), memoryview(data).toreadonly()):
            address, count = pechuvo._lend(view[3:7])
            self.assertEqual(count, 4)
            self.assertEqual(address - pechuvo._lend(memoryview(data))[0], 3)
        numbers = lent([1, 2, 3])
        with pechuvo._list("claim", numbers) as view:
            self.assertEqual(pechuvo._lend(view), (numbers.buffer_info()[0], 3))
        whole = bytes(data)
        self.assertIs(pechuvo._lend(memoryview(whole))[0], whole)

    def test_nothing_stays_lent(self):
        files = list(map(bytearray, sheet("worked")))
        pechuvo.check(*files)
        pechuvo.check_run(*files)
        pechuvo.mesh_sizes(files[0])
        pechuvo.Book().ask(*files)
        with self.assertRaises(TypeError):
            pechuvo.check(files[0], files[1], "no table")
        for file in files:
            file.append(0)  # A bytearray that is still lent can't grow.

    def test_numbers_in_every_wrapping(self):
        lists = [[int(word) for word in file.split()] for file in sheet("table_slope")]
        expected = pechuvo.check_numbers(*lists)
        self.assertTrue(expected.accepted)
        for wrap in (tuple, iter, lent, lambda numbers: memoryview(lent(numbers)).toreadonly(), unaligned):
            self.assertEqual(pechuvo.check_numbers(*map(wrap, lists)), expected)
        with pechuvo._list("mesh", unaligned(lists[0])) as view:
            self.assertEqual(pechuvo._address(view) % 8, 0)

    def test_wrong_use_raises(self):
        mesh, claim, _ = sheet("worked")
        for call in (
            lambda: pechuvo.check("mesh", claim),
            lambda: pechuvo.check(mesh, None),
            lambda: pechuvo.check(mesh, claim, 7),
            lambda: pechuvo.check(memoryview(mesh)[::2], claim),
            lambda: pechuvo.check(array.array("q", [1]), claim),
            lambda: pechuvo.check(mesh, claim, decimals=6.0),
            lambda: pechuvo.check_run(mesh, claim, most="1"),
            lambda: pechuvo.check_numbers(mesh, claim),
            lambda: pechuvo.check_numbers([1.0], []),
            lambda: pechuvo.check_numbers(["1"], []),
            lambda: pechuvo.check_numbers(7, []),
            *(lambda letter=letter: pechuvo.check_numbers(array.array(letter, [1]), []) for letter in "iQd"),
            lambda: pechuvo.next_strength("1", 1, 1, 1),
            lambda: pechuvo.Book().commit(None, mesh, claim),
        ):
            with self.assertRaises(TypeError):
                call()

    def test_beyond_64_bits_raises(self):
        mesh, claim, _ = sheet("worked")
        for call in (
            lambda: pechuvo.check_numbers([2**63], []),
            lambda: pechuvo.check_numbers([], [-(2**63) - 1]),
            lambda: pechuvo.check(mesh, claim, decimals=2**64 + 6),
            lambda: pechuvo.check_run(mesh, claim, most=-1),
            lambda: pechuvo.Book().commit(-1, mesh, claim),
            lambda: pechuvo.Book(count=2**64).ask(mesh, claim),
            lambda: pechuvo.next_strength(10**400, 1, 1, 1),
        ):
            with self.assertRaises(OverflowError):
                call()


def lent(numbers):
    return array.array("q", numbers)


def unaligned(numbers):
    """A view of the numbers at an odd address."""
    return memoryview(bytearray(b"#" + lent(numbers).tobytes()))[1:].cast("q")


def padded(file):
    """A view of the file within a longer one, at an odd address."""
    return memoryview(b"#" + file + b"#")[1:-1]


def mapped(file):
    """The file mapped into memory for reading; an empty one can't be."""
    if not file:
        return file
    with tempfile.TemporaryFile() as disk:
        disk.write(file)
        disk.flush()
        return mmap.mmap(disk.fileno(), 0, access=mmap.ACCESS_READ)


def said(verdict):
    """A verdict in words, without those of its number."""
    text, words = str(verdict), f": {verdict.words}"
    assert text == "accepted" or text.endswith(words), text
    return text[:-len(words)] if text.endswith(words) else text


class Edges(unittest.TestCase):
    def test_empty_inputs(self):
        mesh, claim, _ = sheet("worked")
        self.assertEqual(said(pechuvo.check(b"", b"")), "refused: 1, line 1")
        self.assertEqual(said(pechuvo.check(b"", claim, bytearray())), "refused: 1, line 1")
        self.assertEqual(said(pechuvo.check(mesh, memoryview(b""))), "refused: 11, line 1")
        self.assertEqual(pechuvo.check_run(mesh, b""), pechuvo.Run((), 0))
        self.assertEqual(pechuvo.check_run(mesh, claim, most=0), pechuvo.Run((), 0))
        self.assertEqual([said(answer) for answer in pechuvo.check_run(b"", b"").answers], ["refused: 1, line 1"])
        self.assertEqual(said(pechuvo.check_numbers([], [])), "refused: 1, line 1")
        self.assertEqual(said(pechuvo.mesh_sizes(b"")), "refused: 1, line 1")
        self.assertEqual(said(pechuvo.Book().ask(mesh, b"")), "refused: 11, line 1")
        self.assertEqual(said(pechuvo.check(mesh, claim)), "accepted")

    def test_other_decimals(self):
        for decimals in (-1, 8, 2**32 + 6, -(2**63), 2**63 - 1):
            answer = pechuvo.check(*sheet("worked"), decimals=decimals)
            self.assertEqual((answer.number, answer.place, answer.kind, answer.report), (43, 0, None, None))
            self.assertEqual(said(answer), "refused: 43")

    def test_hostile_sizes(self):
        mesh, claim, table = sheet("table_worked")
        long = bytes(1 << 26)
        numbers = lent(bytes(1 << 23))
        self.assertEqual(said(pechuvo.check(long, long, long)), "refused: 1, line 1")
        self.assertEqual(said(pechuvo.check(mesh + long, claim, table)),
                         f"refused: 1, line {mesh.count(10) + 1}")
        self.assertEqual(said(pechuvo.check(mesh, claim + long, table)), f"refused: 11, line {claim.count(10) + 1}")
        self.assertEqual(pechuvo.check(mesh, claim, long).number, 1)
        self.assertEqual([answer.number for answer in pechuvo.check_run(mesh, long, table).answers], [11])
        self.assertEqual([answer.number for answer in pechuvo.check_run(long, long).answers], [1])
        self.assertEqual(pechuvo.check_numbers(numbers, numbers, numbers).number, 2)
        for number in (-(2**63), 2**63 - 1):
            self.assertEqual(said(pechuvo.check_numbers([number] * 1000, [number] * 1000)), "refused: 2, line 1")

    def test_numbers_and_limits(self):
        mesh, claim, table = sheet("worked_above")
        answer = pechuvo.check(mesh, claim, table)
        self.assertEqual(answer.number, pechuvo.Number.STRENGTH_FAILS)
        self.assertEqual(str(answer), "refused: 22, row 1: strength fails (strength rows, counted from 1, by pairs)")
        self.assertEqual(pechuvo.Verdict(9, 1).words, "a number that this file does not know")
        self.assertIsNotNone(pechuvo.check(mesh, claim, table, decimals=pechuvo.MOST_DECIMALS).report)
        self.assertIsNone(pechuvo.check(mesh, claim, table, decimals=pechuvo.MOST_DECIMALS + 1).report)

    def test_refused_strengths(self):
        infinity = float("inf")
        for trial in ((1, 2, 1, 2), (0, 1, 1, 2), (infinity, 1, 1, 2), (float("nan"), 1, 1, 2), (1, -1, 1, 2)):
            answer = pechuvo.next_strength(*trial)
            self.assertEqual((answer.number, answer.place, answer.strength), (49, 0, None))
        self.assertEqual(pechuvo.next_strength(1.5, 2, 1, 0.5).strength, 4 / 3)


class Threads(unittest.TestCase):
    COUNT = 8

    def each(self, work):
        """What the threads bring back, each having begun when all were there."""
        gate, brought = threading.Barrier(self.COUNT), [None] * self.COUNT

        def run(place):
            gate.wait()
            brought[place] = work(place)

        threads = [threading.Thread(target=run, args=(place,)) for place in range(self.COUNT)]
        for thread in threads:
            thread.start()
        for thread in threads:
            thread.join()
        return brought

    def test_every_call_answers_as_in_one_thread(self):
        sheets = [sheet(name) for name in sheet_names()]

        def answers(place):
            """Each thread goes through the sheets from another one on."""
            turned = sheets[place * 13 % len(sheets):] + sheets[: place * 13 % len(sheets)]
            return {tuple(files): all_answers(*files) for files in turned}

        expected = answers(0)
        for brought in self.each(answers):
            self.assertTrue(brought == expected)

    def test_loading_in_all_threads_at_once(self):
        pechuvo._library = None
        self.assertEqual(self.each(lambda _: pechuvo.check(*sheet("worked")).number), [0] * self.COUNT)

    def test_the_lock_is_let_go(self):
        """While a long call runs in one thread, another one gets on."""
        mesh, claim, table = field_claim("footing_largest_108")
        claims = claim * 10_000
        # A busy machine may keep the other thread off by chance, but with the lock held it would never get on.
        for _ in range(5):
            began, ended, steps = [], [], []

            def long_call():
                began.append(time.perf_counter())
                pechuvo.check_run(mesh, claims, table)
                ended.append(time.perf_counter())

            thread = threading.Thread(target=long_call)
            thread.start()
            while not ended:
                steps.append(time.perf_counter())
                time.sleep(0.0005)
            thread.join()
            first, last = began[0] + (ended[0] - began[0]) * 0.3, began[0] + (ended[0] - began[0]) * 0.7
            if sum(first < step < last for step in steps) >= 3:
                return
        self.fail("a call keeps Python's lock")

    def test_threads_run_side_by_side(self):
        """The figure is told and not held to: it is the machine's."""
        mesh, claim, table = sheet("largest")
        claims, cores = claim * 200, min(4, os.cpu_count() or 1)

        def seconds(count):
            threads = [threading.Thread(target=pechuvo.check_run, args=(mesh, claims, table)) for _ in range(count)]
            began = time.perf_counter()
            for thread in threads:
                thread.start()
            for thread in threads:
                thread.join()
            return time.perf_counter() - began

        # The best of some tries: another program may have the cores for a while.
        one, side_by_side = (min(seconds(count) for _ in range(5)) for count in (1, cores))
        print(f"{cores} threads do {cores * one / side_by_side:.1f} times the checks of one, on {os.cpu_count()} cores")


def all_answers(mesh, claim, table):
    numbers = [[int(word) for word in file.split()] for file in (mesh, claim, table)]
    return (
        pechuvo.check(mesh, claim, table),
        pechuvo.check_run(mesh, claim + claim, table),
        pechuvo.check_numbers(*numbers),
        pechuvo.mesh_sizes(mesh, table),
        pechuvo.Book().ask(mesh, claim, table),
        pechuvo.Book().commit(0, mesh, claim, table),
        pechuvo.next_strength(1.5, 2.0, 1.0, 0.5),
    )


class Library(unittest.TestCase):
    """Where the library is looked for: each time a copy of pechuvo.py in a folder of its own."""

    PROGRAM = "import pechuvo, sys; pechuvo.load(*sys.argv[1:]); print(pechuvo.check(b'', b''))"
    REFUSED = f"refused: 1, line 1: {pechuvo.WORDS[1]}"

    def setUp(self):
        folder = tempfile.TemporaryDirectory()
        self.addCleanup(folder.cleanup)
        self.root = Path(folder.name)
        self.module = self.root / "bindings" / "python"
        self.module.mkdir(parents=True)
        (self.module / "pechuvo.py").write_bytes((HERE / "pechuvo.py").read_bytes())
        pechuvo.load()
        self.library = pechuvo._library._name

    def told(self, *path, **environment):
        """What the program prints, or the last line of what went wrong."""
        kept = dict(os.environ)
        for name in ("PECHUVO_LIBRARY", "LD_LIBRARY_PATH"):
            kept.pop(name, None)
        done = subprocess.run([sys.executable, "-B", "-c", self.PROGRAM, *map(str, path)], cwd=str(self.module),
                              env={**kept, **environment}, stdout=subprocess.PIPE, stderr=subprocess.PIPE)
        return (done.stdout or done.stderr.splitlines()[-1]).decode().strip()

    def lend(self, *where):
        """A folder with the library."""
        folder = self.root.joinpath(*where)
        folder.mkdir(parents=True)
        (folder / pechuvo._SONAME).symlink_to(Path(self.library).resolve())
        return folder

    def test_a_path(self):
        self.assertEqual(self.told(self.library, PECHUVO_LIBRARY="/missing"), self.REFUSED)

    def test_the_environment(self):
        self.lend("target", "shared")
        self.assertEqual(self.told(PECHUVO_LIBRARY=self.library), self.REFUSED)
        self.assertIn("/missing", self.told(PECHUVO_LIBRARY="/missing"))

    def test_beside_the_repository(self):
        self.lend("target", "shared")
        self.assertEqual(self.told(), self.REFUSED)

    def test_the_systems_loader(self):
        self.assertEqual(self.told(LD_LIBRARY_PATH=str(self.lend("elsewhere"))), self.REFUSED)

    def test_none_and_another(self):
        wrong = self.told()
        self.assertTrue(wrong.startswith("OSError: the library of pechuvo can't be loaded"), wrong)
        self.assertIn("has no pechuvo_check", self.told("libc.so.6"))


if __name__ == "__main__":
    unittest.main()
