"""What the tests of tools/explain.py share: where things are, what failed, and files that are changed a little."""

import os
import sys

HERE = os.path.dirname(os.path.abspath(__file__))
ROOT = os.path.join(HERE, "..", "..")
TOOLS, SHEETS = os.path.join(ROOT, "tools"), os.path.join(ROOT, "sheets")
sys.path.insert(0, TOOLS)

import reasons
import rows

failures = []


def hold(true, words):
    if not true:
        failures.append(words)


def files_of(folder, name):
    return reasons.Files(*(rows.read(os.path.join(folder, name + end)) for end in (".mesh", ".table", ".claim")))


def sheet(name):
    return files_of(SHEETS, name)


# Files


def written(path, data):
    with open(path, "wb") as file:
        file.write(data)
    return path


def content(path):
    with open(path, "rb") as file:
        return file.read()


# Changed files


def lines_of(data):
    return data.decode("ascii").split("\n")


def with_number(data, line, column, number):
    """A file with another number in a column; lines and columns count from 1."""
    lines = lines_of(data)
    start = 12 * (column - 1)
    lines[line - 1] = f"{lines[line - 1][:start]}{number:12d}{lines[line - 1][start + 12:]}"
    return "\n".join(lines).encode("ascii")


def with_numbers(data, *changes):
    for change in changes:
        data = with_number(data, *change)
    return data


def with_line(data, line, numbers):
    """A file with a further line before this one."""
    lines = lines_of(data)
    lines.insert(line - 1, "".join(f"{number:12d}" for number in numbers))
    return "\n".join(lines).encode("ascii")


def mesh_changed(name, *changes):
    return sheet(name)._replace(mesh=with_numbers(sheet(name).mesh, *changes))


def claim_changed(name, *changes):
    return sheet(name)._replace(claim=with_numbers(sheet(name).claim, *changes))


def table_changed(name, *changes):
    return sheet(name)._replace(table=with_numbers(sheet(name).table, *changes))


def mesh_bytes(change):
    return sheet("worked")._replace(mesh=change(sheet("worked").mesh))


def claim_bytes(change):
    return sheet("worked")._replace(claim=change(sheet("worked").claim))
