"""The linear program of a mesh, its text for a solver, and a solver's result as text.

Maximise the load factor over all stresses that meet every row. The shadow prices of the rows are the multipliers: they
make every stress column 0 and the column of l 1. Unknowns are sx_1, sy_1, t_1, sx_2, .. and l; rows have their kind and
their number in refusals: balance_1, side_9, jump_37, strength_1."""

import math
import re
from collections import namedtuple

# The optimum as floats. multipliers are those of the rows as they stand; None where the result has none.
Solution = namedtuple("Solution", "stresses load multipliers")

# A row of the program: its name, unknown -> coefficient (the last unknown is l), whether it is an equality, right side.
Line = namedtuple("Line", "name entries equal right")


class Unreadable(Exception):
    """A solver's result that can't be read, in words."""


def row_name(row):
    return f"{row.kind}_{row.number}"


def unknown_names(columns):
    return [f"{('sx', 'sy', 't')[k % 3]}_{k // 3 + 1}" for k in range(columns)] + ["l"]


def row_scale(row):
    """What glpsol sees each row divided by: the greatest common divisor of its coefficients."""
    return math.gcd(*row.entries.values(), row.live) or 1


def as_it_stands(_row):
    return 1


def program_lines(rows, columns, margin=0.0, scale=as_it_stands):
    """The rows that ask something. Strength rows are tightened by `margin`, a fraction of their right side."""
    for row in rows:
        entries = {k: c for k, c in row.entries.items() if c}
        if row.live:
            entries[columns] = row.live
        if row.fixed and entries:
            strength = row.kind == "strength"
            right = row.right * (1 - margin if strength else 1)
            entries = {k: c / scale(row) for k, c in entries.items()}
            yield Line(row_name(row), entries, not strength, right / scale(row))


def room_cost(rows, spread=0.0, spreads=None):
    """unknown -> cost: the sum of the strength rows, each times the spread. By duality a solver that pays it keeps
    each strength multiplier, its own plus the spread, at the spread or more. spreads: number of a row -> its own."""
    cost = {}
    for number, row in enumerate(rows):
        if row.kind == "strength" and row.fixed and (spread or spreads):
            share = spreads.get(number, 0.0) if spreads else 1
            for k, c in row.entries.items():
                cost[k] = cost.get(k, 0) + share * c
    return {k: -(c if spreads else spread * c) for k, c in cost.items() if c}


def terms(entries, names):
    return " ".join(f"{c:+.17g} {names[k]}" for k, c in entries.items())


def lp_text(lines, columns, cost=()):
    """CPLEX LP format; `cost` is added to the load."""
    names = unknown_names(columns)
    text = ["Maximize", f" load: l {terms(dict(cost), names)}".rstrip(), "Subject To"]
    for line in lines:
        text.append(f" {line.name}: {terms(line.entries, names)} {'=' if line.equal else '<='} {line.right:.17g}")
    return "\n".join([*text, "Bounds", " l free", *(f" {name} free" for name in names[:-1]), "End", ""])


def mps_text(lines, columns):
    """Free MPS format, which has no word for a maximum that all solvers read: the least of -l."""
    names, lines = unknown_names(columns), list(lines)
    by_unknown = [[] for _ in names]
    for line in lines:
        for k, c in line.entries.items():
            by_unknown[k].append(f" {names[k]} {line.name} {c:.17g}")
    text = ["NAME mesh", "ROWS", " N minus_load", *(f" {'E' if line.equal else 'L'} {line.name}" for line in lines)]
    text += ["COLUMNS", " l minus_load -1", *(entry for entries in reversed(by_unknown) for entry in entries)]
    text += ["RHS", *(f" right {line.name} {line.right:.17g}" for line in lines if line.right)]
    return "\n".join([*text, "BOUNDS", *(f" FR free {name}" for name in names), "ENDATA", ""])


def solution_text(rows, solution):
    """A line `NAME VALUE` for each unknown, and for each row whose multiplier isn't 0."""
    values = dict(zip(unknown_names(len(solution.stresses)), [*solution.stresses, solution.load]))
    priced = zip(rows, solution.multipliers or [])
    values |= {row_name(row): y for row, y in priced if y}
    return "".join(f"{name} {value + 0.0:.17g}\n" for name, value in values.items())


def solution_values(text, path):
    """name -> value of a result's lines; blank lines and what follows a # say nothing."""
    values = {}
    for number, line in enumerate(text.splitlines(), 1):
        words = line.split("#")[0].split()
        if not words:
            continue
        if len(words) != 2 or not re.fullmatch(r"[+-]?(\d+\.?\d*|\.\d+)([eE][+-]?\d+)?", words[1]):
            raise Unreadable(f"{path}, line {number}: not a name and a decimal number")
        if words[0] in values:
            raise Unreadable(f"{path}, line {number}: {words[0]} stands there twice")
        values[words[0]] = float(words[1])
        if not math.isfinite(values[words[0]]):
            raise Unreadable(f"{path}, line {number}: too large a number")
    return values


def read_solution(text, path, rows, columns):
    """The result of a solver: every unknown, and the multipliers of the rows as they stand, of which those that aren't
    said are 0. They may have any scale and either sign: they are brought to the sum 1 in the column of l."""
    values = solution_values(text, path)
    names = unknown_names(columns)
    missing = [name for name in names if name not in values]
    if missing:
        raise Unreadable(f"{path}: no value of {missing[0]}")
    *stresses, load = (values.pop(name) for name in names)
    multipliers = [values.pop(row_name(row), 0.0) for row in rows]
    if values:
        raise Unreadable(f"{path}: {next(iter(values))} is no unknown and no row of this mesh")
    if not any(multipliers):
        return Solution(stresses, load, None)
    total = sum(row.live * y for row, y in zip(rows, multipliers))
    if not total:
        raise Unreadable(f"{path}: the multipliers' sum in the column of l is 0")
    return Solution(stresses, load, [y / total for y in multipliers])
