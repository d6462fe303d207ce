#!/usr/bin/env python3
"""Says why a claim is accepted or refused, in words and figures that a reader can redo.

    explain.py MESH CLAIM [TABLE]               in words
    explain.py MESH CLAIM [TABLE] --json        the same as JSON (tools/README.md has its members)
    explain.py MESH CLAIM [TABLE] --full        every reason and open row in full, however many
    explain.py MESH CLAIM [TABLE] --svg FILE    draws the mesh as well, into a new file or over an earlier drawing

The table may also be given as --table TABLE.

Number and place are the archive's, from the shared library that PECHUVO_LIBRARY names, from target/shared or
target/staticlib (tests/archive builds it), or from an installed libpechuvo.so.1; where there is none they are this
tool's own, and that is said.

Status: 0 accepted, 1 refused, 2 usage or a file that can't be read or written, 3 the archive's answer is another one
than this tool's."""

import argparse
import os
import stat
import sys

import archive
import drawing
import file_lines
import json_form
import reasons
from table_option import add_table, parsed

# The desk program's limit: a longer file is refused as its first bytes are.
LONGEST = 65_536
IN_FULL, IN_A_LINE = 12, 60


class Unusable(Exception):
    """A file that can't be read or written, in words."""


def read(path):
    try:
        with open(path, "rb") as file:
            return file.read(LONGEST)
    except OSError as error:
        raise Unusable(f"{path}: can't be read: {error.strerror}") from None


def may_be_drawn(path):
    """Ends with words where a picture would take the place of something that is no picture: a file that is there is
    a drawing made before, or a pipe or device, which loses nothing."""
    if not path:
        raise Unusable("--svg: the drawing's name is missing")
    if not os.path.exists(path) or stat.S_ISFIFO(os.stat(path).st_mode) or stat.S_ISCHR(os.stat(path).st_mode):
        return
    data = read(path)
    if data.startswith((b"<svg", b"<?xml")):
        return
    if any(file_lines.header_numbers(data, start) for start in (file_lines.MESH_START, file_lines.CLAIM_START)):
        raise Unusable(f"--svg {path}: this is a mesh or a claim: give another name")
    raise Unusable(f"--svg {path}: this is there and is no drawing: give another name")


def write(path, text):
    try:
        with open(path, "w", encoding="utf-8") as file:
            file.write(text)
    except OSError as error:
        raise Unusable(f"{path}: can't be written: {error.strerror}") from None


def printable(name):
    """A file's name as a text that any file may hold."""
    return "".join(letter if letter.isprintable() else "?" for letter in name)


def arguments():
    as_written = argparse.RawDescriptionHelpFormatter
    parser = argparse.ArgumentParser(prog="explain.py", description=__doc__, formatter_class=as_written)
    parser.add_argument("mesh", metavar="MESH")
    parser.add_argument("claim", metavar="CLAIM")
    add_table(parser)
    parser.add_argument("--json", action="store_true", help="print JSON instead of words")
    parser.add_argument("--full", action="store_true", help=f"write out more than {IN_FULL} reasons or open rows")
    parser.add_argument("--svg", metavar="FILE", help="draw the mesh into this file")
    given = parsed(parser)
    inputs = [path for path in (given.mesh, given.claim, given.table) if path]
    if given.svg is not None and any(same_file(given.svg, path) for path in inputs):
        parser.error(f"--svg {given.svg}: this is an input, which is not overwritten")
    return given


def same_file(one, other):
    return os.path.exists(one) and os.path.exists(other) and os.path.samefile(one, other)


def archive_answer(files):
    """What the archive says, or None where none is built."""
    try:
        answer = archive.check(*files)
    except (OSError, AttributeError) as error:
        raise Unusable(f"the archive's library can't be used: {error}") from None
    if answer is None:
        return None
    number, place, report = answer
    return {"number": number, "place": place, "report": report.decode("ascii").rstrip("\n")}


def differ(told):
    true = told["archive"]
    return true is not None and any(true[part] != told[part] for part in true)


def listed(title, items, full):
    """The items under a title: the first ones in full, the next a line each, and how many more there are."""
    if not items:
        return
    yield ""
    yield title
    for count, item in enumerate(items if full else items[:IN_A_LINE]):
        yield f"- {item['what']}"
        if full or count < IN_FULL:
            yield from (f"    {line}" for line in item["words"])
        elif count == IN_FULL and item["words"]:
            yield "    (from here on a line each; --full has them all in full)"
    if not full and len(items) > IN_A_LINE:
        yield f"and {len(items) - IN_A_LINE} more; --full has them all"


def by_refusal(found):
    """How many of each number, where there are several."""
    numbers = sorted({reason["refusal"] for reason in found if "refusal" in reason})
    counts = [f"{sum(reason['refusal'] == number for reason in found)} of refusal {number}" for number in numbers]
    return f" ({', '.join(counts)})" if len(counts) > 1 else ""


def verdict_words(told):
    number, place = told["number"], told["place"]
    if number == 0:
        return f"accepted: {told['meaning']}"
    where = "column 0 (the column of l)" if number == 33 else f"{told['kind_of_place']} {place}"
    return f"refused with {number} at {where}: {told['meaning']}"


def source_words(told):
    if told["archive"] is None:
        none = "none is built (tests/archive builds it) and none installed"
        return f"number and place are this tool's own and not the archive's: {none}"
    if differ(told):
        return "THE ARCHIVE SAYS SOMETHING ELSE, see below"
    return "number, place and report are the archive's"


def in_words(told, full):
    yield verdict_words(told)
    yield f"report: {' '.join(told['report'].split())}"
    yield source_words(told)
    yield from told["load_words"]
    yield from listed("in short:", told["summary"], True)
    yield from listed(f"why, {len(told['reasons'])} in all{by_refusal(told['reasons'])}:", told["reasons"], full)
    yield from told["open_row_words"]
    yield from listed(f"open rows, {len(told['open_rows'])} in all:", told["open_rows"], full)
    sides = told["warnings"]
    asked = sum(side["question"] for side in sides)
    first = f", first {asked} with a question" if asked else ""
    yield from listed(f"warning, outer sides without an edge line, {len(sides)} in all{first}:", sides, full)


def difference_words(told):
    true = told["archive"]
    return "\n".join(
        [
            "THE TWO ANSWERS DIFFER: this tool explains another verdict than the archive's.",
            f"the archive: number {true['number']}, place {true['place']}: {' '.join(true['report'].split())}",
            f"this tool:   number {told['number']}, place {told['place']}: {' '.join(told['report'].split())}",
            "The archive's answer counts. Where it is older than these sources, tests/archive builds it anew.",
        ]
    )


def main():
    given = arguments()
    try:
        if given.svg is not None:
            may_be_drawn(given.svg)
        table = b"" if given.table is None else read(given.table)
        files = reasons.Files(read(given.mesh), table, read(given.claim))
        told, mesh = reasons.explanation(files)
        told["archive"] = archive_answer(files)
        told["differs"] = differ(told)
        if given.svg:
            names = [printable(os.path.basename(path)) for path in (given.mesh, given.claim, given.table) if path]
            write(given.svg, drawing.picture(names, mesh, told))
        print(json_form.json_text(told) if given.json else "\n".join(in_words(told, given.full)), flush=True)
    except Unusable as problem:
        sys.exit(report_problem(problem))
    except BrokenPipeError:
        os.dup2(os.open(os.devnull, os.O_WRONLY), sys.stdout.fileno())
    except OSError as error:
        sys.exit(report_problem(f"standard output: can't be written: {error.strerror}"))
    if told["differs"]:
        print(difference_words(told), file=sys.stderr)
    sys.exit(3 if told["differs"] else int(told["number"] != 0))


def report_problem(words):
    print(f"explain.py: {words}", file=sys.stderr)
    return 2


if __name__ == "__main__":
    main()
