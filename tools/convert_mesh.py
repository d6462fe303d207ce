#!/usr/bin/env python3
"""Brings mesh files into today's form, each in its place:

    convert_mesh.py MESH..

A header of five columns gets a 0 for the jumps (document 02, N6), a soil line of eight columns 0 and 0 for its kind
and cv (N14). What was changed is said of each file; one that has today's form stays as it is.

Status: 0, or 2 where a file can't be read or written or is no mesh: it is left as it is, and the others are done."""

import argparse
import os
import sys

import rows

OLD_HEADER, OLD_SOIL = 5, 8
ZERO = b"0".rjust(rows.WIDTH)


class Unusable(Exception):
    """A file that is left as it is, and why."""


def read(path):
    try:
        with open(path, "rb") as file:
            return file.read()
    except OSError as error:
        raise Unusable(f"can't be read: {error.strerror}") from None


def write(path, data):
    """The whole file or none of it: written beside the old one, which it then takes the place of."""
    path = os.path.realpath(path)
    beside = path + ".part"
    try:
        with open(beside, "wb") as file:
            file.write(data)
        os.chmod(beside, os.stat(path).st_mode)
        os.replace(beside, path)
    except OSError as error:
        if os.path.exists(beside):
            os.remove(beside)
        raise Unusable(f"can't be written: {error.strerror}") from None


def columns_of(line):
    """How many columns a line has, or None where they aren't whole."""
    columns, odd = divmod(len(line), rows.WIDTH)
    return None if odd else columns


def converted(data):
    """(the bytes of a mesh file with the columns that it lacks, what was changed, in words)."""
    lines, changes = data.split(b"\n"), []
    if columns_of(lines[0]) == OLD_HEADER:
        lines[0] += ZERO
        changes.append("the header has a 0 for its jumps now")
    soils = lines[0][2 * rows.WIDTH : 3 * rows.WIDTH].strip()
    last = int(soils) if soils.isdigit() else 0
    old = [k for k in range(1, min(last + 1, len(lines))) if columns_of(lines[k]) == OLD_SOIL]
    for number in old:
        lines[number] += 2 * ZERO
    if old:
        which = f"{len(old)} soil lines have" if len(old) > 1 else f"the soil line {old[0] + 1} has"
        changes.append(f"{which} 0 and 0 for kind and cv now")
    return b"\n".join(lines), changes


def fault(data):
    """Why bytes are no mesh, by their form or already by their header, or None."""
    try:
        rows.lined_mesh(rows.FileLines(data, 1), True)
    except rows.Refused as refusal:
        if refusal.number == 1 or refusal.place == 1:
            return f"it is refused with {refusal.number} at line {refusal.place}"
    return None


def convert(path):
    """Converts a file; returns what was done, in words."""
    data = read(path)
    if b"\r" in data:
        raise Unusable("its lines end in CR LF, and byte 10 alone ends a line: left as it is")
    text, changes = converted(data)
    why = fault(text)
    if why:
        with_columns = "with the columns of today's form " if changes else ""
        raise Unusable(f"this is no mesh: {with_columns}{why}: left as it is")
    if not changes:
        return "has today's form, left as it is"
    write(path, text)
    return ", ".join(changes)


def main():
    as_written = argparse.RawDescriptionHelpFormatter
    parser = argparse.ArgumentParser(prog="convert_mesh.py", description=__doc__, formatter_class=as_written)
    parser.add_argument("meshes", metavar="MESH", nargs="+")
    status = 0
    for path in parser.parse_args().meshes:
        try:
            print(f"{path}: {convert(path)}")
        except Unusable as problem:
            print(f"convert_mesh.py: {path}: {problem}", file=sys.stderr)
            status = 2
    sys.exit(status)


if __name__ == "__main__":
    main()
