#!/usr/bin/env python3
"""Makes a claim for a mesh: solves its linear program with glpsol, or takes another solver's result, turns the optimum
into whole numbers within a claim's limits, has the claim checked, and writes the claim file. See README.md beside
this file.

It says what each part carries or allows and how far that is from the solver's optimum. Exit status: 0 the claim is
written with each part that was asked for, within 0.1 % of the optimum; 3 it is written, and a part is missing or
farther from the optimum than that, which is said on standard error; 1 nothing is written; 2 usage."""

import argparse
import os
import stat
import sys
from collections import namedtuple

import archive
import glpsol
import linear_program
import rows as exact
import whole_field
import whole_multipliers
from table_option import add_table, parsed

FAR = 1e-3  # a part farther than this from the optimum, relative to it, isn't written silently
SAME = 1e-9  # nearer than this floats don't tell the two apart

# The parts that were made, None where they weren't; a line for each part; what is to be said on standard error.
Made = namedtuple("Made", "claim notes warnings")


def judged_mesh(mesh_text, table, name):
    try:
        return exact.judged_mesh(*exact.mesh_files(mesh_text, table))
    except exact.Refused as refusal:
        raise SystemExit(f"{name} is refused with {refusal}{hint(mesh_text, table)}") from None


def hint(*texts):
    """What a form that looks right in an editor may have."""
    if any(b"\r" in text for text in texts):
        return ": lines end in CR LF, and must end in LF alone"
    if any(b"\t" in text for text in texts):
        return ": there are tabs, and columns are filled with spaces"
    return ""


def distance(load, optimum):
    """How far a part is from the optimum, relative to it."""
    return abs(load - optimum) / max(abs(optimum), 1e-9)


class Maker:
    """Makes the parts of a claim, and notes what was made.

    optimum: what fields are below and what limits are above. A result from elsewhere may be one of a tightened
    program: then the two differ, and each part is compared with the farther one."""

    def __init__(self, mesh, rows, given=None):
        self.mesh, self.rows, self.columns, self.given = mesh, rows, 3 * len(mesh.nodes), given
        solution = given or glpsol.solve(rows, self.columns)
        self.least = self.most = solution.load
        if given and given.multipliers:
            bound = sum(row.right * y for row, y in zip(rows, given.multipliers))
            self.least, self.most = min(self.least, bound), max(self.most, bound)
        self.notes, self.warnings = [], []

    def field(self, margin, seconds):
        if self.given:
            field, how = whole_field.given_field(self.mesh, self.rows, self.given)
        else:
            solution = glpsol.solve(self.rows, self.columns, margin)
            field, how = whole_field.make_field(self.mesh, self.rows, solution, margin, seconds)
        if field is None:
            self.missing("field", how)
            return 0, 0, None
        n, l, stresses = field
        # Where a soil is stronger one way, the report doesn't tell it (document 02, N14).
        told = "" if all(soil.kind == 0 for soil in self.mesh.soils) else ", not told on this mesh"
        self.note("field carries", l / n, "below", self.most, f"{told} ({how})", not margin)
        return n, l, stresses

    def multipliers(self, spread, tries, seconds):
        if self.given and not self.given.multipliers:
            self.missing("multipliers", "the result has none")
            return None
        if self.given:
            multipliers, how = whole_multipliers.given_multipliers(self.mesh, self.rows, self.given, seconds)
        else:
            solution = glpsol.solve(self.rows, self.columns, spread=spread)
            make = whole_multipliers.make_multipliers
            multipliers, how = make(self.mesh, self.rows, solution, spread, tries, seconds)
        if multipliers is None:
            self.missing("multipliers", how)
            return None
        limit = float(whole_multipliers.limit(self.rows, multipliers))
        self.note("multipliers allow", limit, "above", self.least, f" ({how})", not spread)
        return multipliers

    def note(self, what, load, side, optimum, how, optimal):
        away = distance(load, optimum)
        where = f"{100 * away:.1e} % {side} the solver's optimum" if away > SAME else "the solver's optimum"
        self.notes.append(f"{what} {load:.9g}, {where}{how}")
        if optimal and away > FAR:
            far = f"{100 * away:.2g} % {side} the solver's optimum, {optimum:.9g}"
            self.warnings.append(f"{what} {load:.9g}: {far}{how}")

    def missing(self, part, why):
        self.notes.append(f"no {part}: {why}")
        self.warnings.append(f"the claim has no {part}: {why}")


def make_claim(mesh, rows, part="both", margin=0.0, spread=0.0, tries=0, seconds=0, given=None):
    """What is made for a mesh. seconds: of each search for something nearer to the optimum; with 0 there is none, and
    the field has the quick way alone. given: another solver's result."""
    maker = Maker(mesh, rows, given)
    n, l, stresses = maker.field(margin, seconds) if part != "multipliers" else (0, 0, None)
    multipliers = maker.multipliers(spread, tries, seconds) if part != "field" else None
    return Made(exact.Claim(n, l, stresses, multipliers), maker.notes, maker.warnings)


# Files


def read(path):
    try:
        with open(path, "rb") as file:
            return file.read()
    except OSError as trouble:
        raise SystemExit(f"{path}: {trouble.strerror}") from None


def begins_with(text, columns):
    """The first line has so many columns: a mesh's has six, a claim's four."""
    try:
        exact.FileLines(text, 0).take(columns)
    except exact.Refused:
        return False
    return True


def may_be_written(paths, inputs):
    """Says so where a file that is read, or any mesh, would be lost; the first of the paths, that of the claim, may be
    a claim's alone."""
    there = [path for path in paths if path and os.path.exists(path)]
    for path in there:
        if any(os.path.exists(read_path) and os.path.samefile(path, read_path) for read_path in inputs):
            raise SystemExit(f"{path} would be written over: give another name")
        text = read(path) if os.path.isfile(path) else b""
        if path == paths[0] and text and not begins_with(text, len(exact.CLAIM_HEADER)):
            raise SystemExit(f"{path} is there and is no claim: give another name")
        if path != paths[0] and any(begins_with(text, len(line)) for line in (exact.HEADER, exact.CLAIM_HEADER)):
            raise SystemExit(f"{path} is a mesh or a claim: give another name")
    given = list(filter(None, paths))
    if len(set(map(os.path.abspath, given))) < len(given):
        raise SystemExit("two outputs have one name")


def write(path, text):
    """A whole file or none: written beside the old one, then renamed. What is no file, such as a pipe, is written."""
    beside = path if os.path.exists(path) and not stat.S_ISREG(os.stat(path).st_mode) else path + ".part"
    try:
        with open(beside, "wb") as file:
            file.write(text)
        if beside != path:
            os.replace(beside, path)
    except OSError as trouble:
        if beside != path and os.path.exists(beside):
            os.remove(beside)
        raise SystemExit(f"{path}: {trouble.strerror}") from None


def checked(mesh_text, table, claim_text):
    """Says who checked the claim; ends with words where it isn't accepted."""
    verdict, line = exact.check(mesh_text, table, claim_text)
    try:
        answer = archive.check(mesh_text, table, claim_text)
    except (OSError, AttributeError) as error:
        raise SystemExit(f"the archive's library can't be used: {error}; nothing written") from None
    if answer and answer != (verdict.number, verdict.place, line):
        raise SystemExit(f"the archive answers {answer[:2]}, rows.py {verdict[:2]}: nothing written")
    if verdict.number:
        at = f"{verdict.number} at {verdict.kind} {verdict.place}"
        raise SystemExit(f"the claim is refused with {at}: nothing written")
    by = "the archive" if answer else "rows.py alone: there is no archive here (bash tests/archive makes it)"
    return f"checked by {by}: {' '.join(line.decode('ascii').split())}"


def write_programs(words, mesh, rows):
    """The program as LP and as MPS, and glpsol's own result."""
    columns = 3 * len(mesh.nodes)
    lines = list(linear_program.program_lines(rows, columns, words.margin))
    for path, text_of in ((words.lp, linear_program.lp_text), (words.mps, linear_program.mps_text)):
        if path:
            write(path, text_of(lines, columns).encode("ascii"))
            print(f"{path}: {len(lines)} rows, {columns + 1} unknowns")
    if words.keep:
        solution = glpsol.solve(rows, columns, words.margin)
        write(words.keep, linear_program.solution_text(rows, solution).encode("ascii"))
        print(f"{words.keep}: load {solution.load:.9g}")


def arguments():
    parser = argparse.ArgumentParser(description=__doc__, formatter_class=argparse.RawDescriptionHelpFormatter)
    parser.add_argument("mesh")
    parser.add_argument("claim", nargs="?", help="written; may be left out where --lp, --mps or --keep is given")
    add_table(parser)
    parser.add_argument("--part", choices=("field", "multipliers", "both"), default="both")
    parser.add_argument("--seconds", type=int, default=20, help="of each search; 0: only the quick rounding")
    parser.add_argument("--margin", type=float, default=0.0, help="tighten the field's strength rows by this fraction")
    parser.add_argument("--spread", type=float, default=0.0, help="add this much to every strength multiplier")
    parser.add_argument("--tries", type=int, default=0, help="take the best quick multipliers of so many, up to 900")
    parser.add_argument("--solution", help="another solver's result, instead of glpsol")
    parser.add_argument("--lp", help="write the linear program in CPLEX LP format")
    parser.add_argument("--mps", help="write it in free MPS format, as the least of -l")
    parser.add_argument("--keep", help="write glpsol's result in the form that --solution takes")
    words = parsed(parser)
    if not (words.claim or words.lp or words.mps or words.keep):
        parser.error("a claim file to write, --lp, --mps or --keep is needed")
    if words.seconds < 0 or not 0 <= words.margin < 1 or not 0 <= words.spread < 1 or not 0 <= words.tries <= 900:
        parser.error("--seconds is 0 or more, --margin and --spread are from 0 to below 1, --tries from 0 to 900")
    return words


def main():
    words = arguments()
    inputs = [path for path in (words.mesh, words.table, words.solution) if path]
    may_be_written((words.claim, words.lp, words.mps, words.keep), inputs)
    texts = read(words.mesh), read(words.table) if words.table is not None else b""
    given = words.solution and (read(words.solution).decode("ascii", "replace"), words.solution)
    mesh, rows = judged_mesh(*texts, words.mesh)
    try:
        solution = given and linear_program.read_solution(*given, rows, 3 * len(mesh.nodes))
        write_programs(words, mesh, rows)
        if not words.claim:
            return
        how = words.part, words.margin, words.spread, words.tries, words.seconds
        made = make_claim(mesh, rows, *how, solution)
    except glpsol.NoOptimum as trouble:
        raise SystemExit(f"{words.mesh} has no load factor: {trouble}") from None
    except linear_program.Unreadable as trouble:
        raise SystemExit(str(trouble)) from None
    print("\n".join(made.notes))
    if made.claim.stresses is None and made.claim.multipliers is None:
        raise SystemExit(f"{words.claim} is not written: no part could be made")
    claim = exact.text_of(exact.claim_lines(mesh, made.claim))
    print(checked(*texts, claim))
    write(words.claim, claim)
    for warning in made.warnings:
        print(f"{words.claim}: {warning}", file=sys.stderr)
    sys.exit(3 if made.warnings else 0)


if __name__ == "__main__":
    main()
