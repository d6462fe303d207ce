"""cases.py PROGRAM: every sheet of sheets/ and every case of tests/vectors through the command, text and JSON."""
import json
import os
import sys
from fractions import Fraction

from program import ACCEPTED, FAILED, REFUSED, ROOT, SHEETS, Program, agree, files_of, lines_of

CASES = os.path.join(ROOT, "tests", "vectors", "cases")
SIZES = ["balance_rows", "side_rows", "jump_rows", "strength_rows", "columns", "field_bytes", "multipliers_bytes",
         "both_bytes"]
REPORT, COLUMN = 113, 28
SHORT_BUFFER = 41
WRONG_DECIMALS = 43


def status_of(number):
    return ACCEPTED if number == 0 else REFUSED


def said(number):
    """What standard error has of a single refusal."""
    return None if number == 0 else f"refused with {number}"


def or_null(text):
    return None if text == "none" else text


def json_of(line, kind):
    """The members that a report line gives."""
    number, second, lower, upper = line.split()
    accepted = number == "0"
    rows = or_null(second) if accepted else None
    return {"number": int(number), "place": 0 if accepted else int(second), "kind": kind,
            "open_rows": rows if rows is None else int(rows), "lower": or_null(lower), "upper": or_null(upper)}


def check(program, files, decimals, line, kind):
    """One claim, as text and as JSON."""
    number = int(line.split()[0])
    words = ["check", *files, *decimals]
    program.expect(status_of(number), line.encode() + b"\n", *words, errors=said(number))
    told = json.loads(program.expect(status_of(number), None, *words, "--json"))
    for member, value in json_of(line, told["kind"] if kind is None else kind).items():
        agree(f"{words} --json: {member}", told[member], value)
    agree(f"{words} --json: claim", told["claim"], files[1])


def book_of(program, empty, files, line):
    """An empty book with an accepted claim has the report's decimals."""
    number, _, lower, upper = line.split()
    if number == "0":
        told = json.loads(program.expect(ACCEPTED, None, "book", empty, "ask", *files, "--json"))
        agree(f"{files}: decimals of a book", [told["lower_decimal"], told["upper_decimal"]],
              [or_null(lower), or_null(upper)])


def sheets(program, folder):
    empty = os.path.join(folder, "empty.book")
    program.expect(ACCEPTED, None, "book", empty, "new")
    with open(os.path.join(SHEETS, "expected"), encoding="utf-8") as file:
        for line in file.read().splitlines():
            name, report = line.split(" ", 1)
            check(program, files_of(SHEETS, name), [], report, None)
            book_of(program, empty, files_of(SHEETS, name), report)


def decimals(program):
    for name, count, number, _, line in lines_of(os.path.join(SHEETS, "decimals")):
        files = files_of(SHEETS, name)
        if int(number) == WRONG_DECIMALS:
            program.expect(FAILED, b"", "check", *files, "--decimals", count, errors="--decimals")
        else:
            check(program, files, ["--decimals", count], line, None)


def vectors(program):
    """The command's report buffer always has room, so cases of a short one are not for it."""
    for name, number, _, line, kind, _, count, _ in lines_of(os.path.join(CASES, "expected")):
        if int(number) == WRONG_DECIMALS:
            program.expect(FAILED, b"", "check", *files_of(CASES, name), f"--decimals={count}", errors="--decimals")
        elif int(number) != SHORT_BUFFER:
            check(program, files_of(CASES, name), ["--decimals", count], line, kind)


def runs(program, folder):
    """The command has room for every report, so one that the case's buffer has no room for is one more."""
    for name, room, reports, taken in lines_of(os.path.join(folder, "expected")):
        with open(os.path.join(folder, name + ".out"), "rb") as file:
            out = file.read()
        status, got, errors = program.run("run", *files_of(folder, name, "claims"))
        agree(f"run {name}: reports", got[:len(out)], out)
        if int(room) // REPORT <= int(reports):
            continue
        agree(f"run {name}: all of it", got, out)
        refused = any(got[k:k + COLUMN].strip() != b"0" for k in range(0, len(got), REPORT))
        agree(f"run {name}: status", status, FAILED if reports == "0" else REFUSED if refused else ACCEPTED)
        piece = "no claim is in it" if reports == "0" else f"reports {reports}, bytes taken {taken},"
        agree(f"run {name}: what is said", piece.encode() in errors, True)


def sizes(program, folder, table):
    for name, number, place, kind, *values in lines_of(table):
        mesh, _, *with_table = files_of(folder, name)
        text = f"number {number}\nplace {place}\n"
        if number == "0":
            text += "".join(f"{size} {value}\n" for size, value in zip(SIZES, values))
        words = ["sizes", mesh, *with_table]
        program.expect(status_of(int(number)), text.encode(), *words, errors=said(int(number)))
        told = json.loads(program.expect(status_of(int(number)), None, *words, "--json"))
        agree(f"{words}: kind", told["kind"], kind)
        agree(f"{words}: sizes", [told[size] for size in SIZES],
              [int(value) for value in values] if number == "0" else [None] * len(SIZES))


def book_text(book):
    return "pechuvo book\nmesh none\nlower {}\nupper {}\ncount {}\n".format(*book.split(","))


def as_fractions(lower, upper, count):
    """Two bounds and a count; a fraction whose denominator is not above 0 is compared as it stands."""
    return [bound if bound is None or int(bound.split("/")[1]) <= 0 else Fraction(bound)
            for bound in (lower, upper)] + [int(count)]


def of_case(book):
    """A book of the cases."""
    lower, upper, count = book.split(",")
    return as_fractions(or_null(lower), or_null(upper), count)


def of_json(told):
    return as_fractions(told["lower"], told["upper"], told["count"])


def books(program, folder):
    """Each call on a book of its own file, which is the case's book before it."""
    source = os.path.join(CASES, "book")
    path = os.path.join(folder, "case.book")
    for name, call, before, count, claim, number, _, after in lines_of(os.path.join(source, "expected")):
        with open(path, "w", encoding="utf-8") as file:
            file.write(book_text(before))
        mesh, _, *with_table = files_of(source, name)
        words = ["book", path, call, mesh, os.path.join(source, f"{name}.{claim}.claim"), *with_table, "--json"]
        words += ["--count", count] if call == "commit" else []
        if count.startswith("-") and call == "commit":
            program.expect(FAILED, b"", *words, errors="--count")
            continue
        told = json.loads(program.expect(status_of(int(number)), None, *words))
        agree(f"{words}: number", told["claims"][0]["number"], int(number))
        agree(f"{words}: book", of_json(told), of_case(after))
        shown = json.loads(program.expect(ACCEPTED, None, "book", path, "show", "--json"))
        agree(f"{words}: file", of_json(shown), of_case(after if call == "commit" else before))


def main():
    program = Program(sys.argv[1])
    sheets(program, sys.argv[2])
    decimals(program)
    vectors(program)
    runs(program, os.path.join(SHEETS, "runs"))
    runs(program, os.path.join(CASES, "runs"))
    sizes(program, SHEETS, os.path.join(SHEETS, "sizes"))
    sizes(program, CASES, os.path.join(CASES, "sizes"))
    books(program, sys.argv[2])
    print(f"{program.runs} runs on sheets and cases, each as expected")


main()
