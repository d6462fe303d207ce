#!/usr/bin/env python3
"""Makes the sheets of this repository again: make_sheets.py FOLDER writes NAME.mesh, NAME.claim and, where there is
one, NAME.table for every sheet, and FOLDER/expected with the report line of each, worked out by rows.py; where
sheet_list.py says the line, the two are compared. FOLDER/decimals has lines with other decimals, FOLDER/sizes the
sizes of meshes, FOLDER/runs the runs. Needs glpsol; the sheets are kept in sheets/, so that checking them needs no
solver."""

import os
import sys

import claim_from_solver
import rows
from sheet_list import DECIMALS, RUNS, SHEETS, SIZES


def write(folder, name, data):
    with open(os.path.join(folder, name), "wb") as file:
        file.write(data)


def solved(mesh, table, *how):
    """A claim's lines for a mesh file, and a word on how it was made; without the searches, which take long and end
    by time."""
    read = rows.judged_mesh(*rows.mesh_files(mesh, table))
    made = claim_from_solver.make_claim(*read, *how)
    missing = [note for note in made.notes if note.startswith("no ")]
    if missing:
        raise SystemExit("; ".join(missing))
    return rows.claim_lines(read[0], made.claim), "; ".join(made.notes)


def write_sheet(folder, sheet):
    """One sheet; returns its line."""
    mesh, table, note = rows.text_of(sheet.mesh), rows.text_of(sheet.table), "by hand"
    claim = sheet.claim
    if claim is None:
        claim, note = solved(mesh, table, *sheet.how)
    claim = rows.text_of(claim)
    verdict, line = rows.check(mesh, table, claim)
    line = line.decode("ascii")
    if sheet.line is None and verdict.number or sheet.line is not None and line.split() != sheet.line:
        raise SystemExit(f"{sheet.name}: {line}")
    write(folder, sheet.name + ".mesh", mesh)
    write(folder, sheet.name + ".claim", claim)
    if table:
        write(folder, sheet.name + ".table", table)
    print(f"{sheet.name}: {sheet.mesh[0][0]} nodes; {note}", flush=True)
    return f"{sheet.name} {line}"


def decimals_line(folder, name, decimals):
    """Name, decimals, number, place, report line or -."""
    mesh, claim = (rows.read(os.path.join(folder, name + end)) for end in (".mesh", ".claim"))
    verdict, written = rows.check(mesh, b"", claim, decimals)
    return f"{name}\t{decimals}\t{verdict.number}\t{verdict.place}\t{rows.told(written)}\n"


def sizes_line(folder, name):
    """Name, number, place, kind of place, the eight sizes."""
    told = rows.mesh_sizes(*(rows.read(os.path.join(folder, name + end)) for end in (".mesh", ".table")))
    return "\t".join([name, *map(str, told)]) + "\n"


def write_run(folder, run):
    """One run; returns its line: name, bytes of the buffer, reports, bytes taken."""
    mesh, claims = rows.text_of(run.mesh), b""
    for claim in run.claims:
        lines = solved(mesh, b"", *claim)[0] if isinstance(claim, tuple) else claim
        claims += rows.text_of(lines)
    claims = claims[: len(claims) - run.short]
    written, reports, taken = rows.check_run(mesh, b"", claims, run.room)
    for end, data in ((".mesh", mesh), (".claims", claims), (".out", written)):
        write(folder, run.name + end, data)
    print(f"run {run.name}: {reports} reports, {taken} of {len(claims)} bytes taken")
    return f"{run.name}\t{run.room}\t{reports}\t{taken}\n"


def main():
    folder = sys.argv[1]
    lines = [write_sheet(folder, sheet) for sheet in sorted(SHEETS, key=lambda s: s.name)]
    write(folder, "expected", "".join(lines).encode("ascii"))
    lines = [decimals_line(folder, *case) for case in DECIMALS]
    write(folder, "decimals", "".join(lines).encode("ascii"))
    runs = os.path.join(folder, "runs")
    os.makedirs(runs, exist_ok=True)
    lines = [write_run(runs, run) for run in sorted(RUNS)]
    write(runs, "expected", "".join(lines).encode("ascii"))
    lines = [sizes_line(folder, name) for name in SIZES]
    write(folder, "sizes", "".join(lines).encode("ascii"))


if __name__ == "__main__":
    main()
