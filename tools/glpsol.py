"""glpsol (GLPK), a linear programming solver of another make, on the program of a mesh."""

import os
import subprocess
import tempfile

from linear_program import Solution, lp_text, program_lines, room_cost, row_name, row_scale, unknown_names

SECONDS = 300  # how long it may take for a program without whole numbers


class NoOptimum(Exception):
    """The program has no optimum, or glpsol doesn't find it."""


def run(text, options=(), seconds=SECONDS):
    """The lines of the solution, and the name of each row ("i", number) and column ("j", number)."""
    with tempfile.TemporaryDirectory() as folder:
        program, solution, names = (os.path.join(folder, name) for name in ("p.lp", "p.sol", "p.glp"))
        with open(program, "w", encoding="ascii") as file:
            file.write(text)
        command = ["glpsol", "--lp", program, "-w", solution, "--wglp", names, *options]
        try:
            done = subprocess.run(command, stdout=subprocess.PIPE, stderr=subprocess.STDOUT, text=True, timeout=seconds)
        except FileNotFoundError:
            raise SystemExit("glpsol is not installed (Debian: apt-get install glpk-utils)") from None
        except subprocess.TimeoutExpired:
            raise NoOptimum(f"glpsol took longer than {seconds} seconds") from None
        if not os.path.exists(solution) or not os.path.exists(names):
            raise NoOptimum("glpsol: " + done.stdout[-300:])
        with open(solution, encoding="ascii") as file:
            values = [line.split() for line in file]
        with open(names, encoding="ascii") as file:
            named = [line.split() for line in file]
    return values, {(line[1], line[2]): line[3] for line in named if line[0] == "n" and len(line) == 4}


def optimum(text):
    """(column name -> value, row name -> price)."""
    values, names = run(text)
    if not any(line[:2] == ["s", "bas"] and line[4:6] == ["f", "f"] for line in values):
        raise NoOptimum("no field meets the rows, or any load does")
    named = [(line, names.get((line[0], line[1]))) for line in values if len(line) > 2]
    columns = {name: float(line[3]) for line, name in named if line[0] == "j" and name}
    return columns, {name: float(line[4]) for line, name in named if line[0] == "i" and name}


def solve(rows, columns, margin=0.0, spread=0.0, spreads=None):
    """The optimum of a mesh's program. spread: least multiplier of each strength row; spreads: number of a row -> its
    own."""
    lines = program_lines(rows, columns, margin, row_scale)
    values, prices = optimum(lp_text(lines, columns, room_cost(rows, spread, spreads)))
    *stresses, load = (values.get(name, 0.0) for name in unknown_names(columns))
    multipliers = [prices.get(row_name(row), 0.0) / row_scale(row) for row in rows]
    for number, row in enumerate(rows):
        if row.kind == "strength" and row.fixed:
            multipliers[number] += spreads.get(number, 0.0) if spreads else spread
    return Solution(stresses, load, multipliers)


def solve_whole(text, seconds, options=()):
    """A program with whole numbers: (name -> value, proved), or (None, proved) where no solution was found; proved
    says that glpsol finished the search."""
    try:
        values, names = run(text, ["--tmlim", str(seconds), *options], 3 * seconds + 60)
    except NoOptimum:
        return None, False
    status = next((line[4] for line in values if line[:2] == ["s", "mip"]), "u")
    if status not in ("o", "f"):
        return None, status == "n"
    return {names["j", line[1]]: float(line[2]) for line in values if line[0] == "j"}, status == "o"
