#!/usr/bin/env python3
"""Holds rows.py to sheets/expected and to cases of another make: rows_test.py [FOLDER..], each folder with
`expected` (name, number, place, report line, kind of place, room, decimals) and the files that it names, and
where they are there `numbers`, `runs`, as sheets/runs is, and `sizes`."""

import os
import sys

import rows

HERE = os.path.dirname(os.path.abspath(__file__))
SHEETS = os.path.join(HERE, "..", "sheets")


def lines_of(*path):
    with open(os.path.join(*path), encoding="ascii") as file:
        return file.read().splitlines()


def files_of(folder, name, *ends):
    """The bytes of the files with these ends; a table that isn't there is empty."""
    return [rows.read(os.path.join(folder, name + end)) for end in ends]


def sheet(folder, name):
    return files_of(folder, name, ".mesh", ".table", ".claim")


def differing_sheets(folder):
    for line in lines_of(folder, "expected"):
        name = line.split()[0]
        if name + " " + rows.told(rows.check(*sheet(folder, name))[1]) != line:
            yield name


def differing_files(folder):
    for line in lines_of(folder, "expected"):
        name, number, place, text, kind, room, decimals = line.split("\t")[:7]
        verdict, written = rows.check(*sheet(folder, name), int(decimals), int(room))
        told = rows.told(written)
        if [str(verdict.number), str(verdict.place), told, verdict.kind] != [number, place, text, kind]:
            yield f"{name}: {verdict}, expected {line}"


def differing_decimals(folder):
    for line in lines_of(folder, "decimals"):
        name, decimals, *expected = line.split("\t")
        verdict, written = rows.check(*sheet(folder, name), int(decimals))
        if [str(verdict.number), str(verdict.place), rows.told(written)] != expected:
            yield f"{name} with {decimals} decimals"


def differing_numbers(folder):
    for line in lines_of(folder, "expected"):
        name, *expected = line.split("\t")
        mesh, claim, table = ([int(n) for n in text.split()] for text in lines_of(folder, name + ".txt"))
        verdict = rows.check_numbers(mesh, table, claim)
        if ["-" if part is None else str(part) for part in verdict] != expected:
            yield f"{name}: {verdict}, expected {line}"


def differing_runs(folder):
    for line in lines_of(folder, "expected"):
        name, room, reports, taken = line.split("\t")
        *files, out = files_of(folder, name, ".mesh", ".table", ".claims", ".out")
        written, *counts = rows.check_run(*files, int(room))
        if [written, *counts] != [out, int(reports), int(taken)]:
            yield f"{name}: {counts}, expected {line}"


def differing_sizes(folder):
    for line in lines_of(folder, "sizes"):
        name, *expected = line.split("\t")
        told = rows.mesh_sizes(*files_of(folder, name, ".mesh", ".table"))
        if list(map(str, told)) != expected:
            yield f"{name}: {told}, expected {line}"


def main():
    parts = [(SHEETS, "expected", differing_sheets), (SHEETS, "decimals", differing_decimals)]
    parts += [(SHEETS, "runs/expected", differing_runs), (SHEETS, "sizes", differing_sizes)]
    for folder in sys.argv[1:]:
        parts += [(folder, "expected", differing_files), (folder, "numbers/expected", differing_numbers)]
        parts += [(folder, "runs/expected", differing_runs), (folder, "sizes", differing_sizes)]
    differing, count = [], 0
    for folder, part, compare in parts:
        path = os.path.join(folder, part)
        if os.path.exists(path):
            differing += [f"{path}: {words}" for words in compare(os.path.dirname(path))]
            count += len(lines_of(path))
    print("\n".join(differing + [f"{count} cases, {len(differing)} differ"]))
    sys.exit(bool(differing))


if __name__ == "__main__":
    main()
