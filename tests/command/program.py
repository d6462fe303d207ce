"""Runs of the command, and what is expected of each."""
import math
import os
import subprocess
import sys
from fractions import Fraction

ROOT = os.path.dirname(os.path.dirname(os.path.dirname(os.path.abspath(__file__))))
SHEETS = os.path.join(ROOT, "sheets")
ACCEPTED, REFUSED, FAILED = 0, 1, 2


class Program:
    """The command, and how often it was run."""

    def __init__(self, path):
        self.path = os.path.abspath(path)
        self.runs = 0

    def run(self, *words, folder=ROOT, **options):
        """Status, standard output and standard error, both as bytes."""
        self.runs += 1
        options.setdefault("stdout", subprocess.PIPE)
        done = subprocess.run([self.path, *words], cwd=folder, stderr=subprocess.PIPE, **options)
        return done.returncode, done.stdout, done.stderr

    def expect(self, status, output, *words, errors=None, **options):
        """One run with this status and output; `errors` are pieces of standard error, none where it is silent."""
        got = self.run(*words, **options)
        good = got[0] == status and (output is None or got[1] == output)
        pieces = [] if errors is None else errors if isinstance(errors, list) else [errors]
        said = got[2].decode(errors="replace")
        good = good and all(piece in said for piece in pieces) and (pieces != [] or said == "")
        good = good and all(line.startswith("pechuvo: ") for line in said.splitlines())
        if not good:
            fail(f"{words}: status {got[0]}, not {status}\nstandard output: {got[1]!r}\nnot {output!r}\n"
                 f"standard error: {said!r}\nnot {pieces!r}")
        return got[1]


def fail(what):
    sys.exit(f"FAILED: {what}")


def agree(what, got, expected):
    if got != expected:
        fail(f"{what}: {got!r}, not {expected!r}")


def decimals(bound, up):
    """A bound of a book, NUMERATOR/DENOMINATOR, with six decimals, rounded down or up."""
    above, below = map(int, bound.split("/"))
    if below <= 0:
        return "none"
    millionths = (math.ceil if up else math.floor)(Fraction(above, below) * 10**6)
    return f"{'-' if millionths < 0 else ''}{abs(millionths) // 10**6}.{abs(millionths) % 10**6:06}"


def lines_of(path):
    """The lines of a table of cases, each as its columns between tabs."""
    with open(path, encoding="utf-8") as file:
        return [line.split("\t") for line in file.read().splitlines()]


def files_of(folder, name, ending="claim"):
    """Mesh and claims of a case, and its table where there is one."""
    path = os.path.join(folder, name)
    table = path + ".table"
    with_table = ["--table", table] if os.path.exists(table) else []
    return [path + ".mesh", f"{path}.{ending}", *with_table]
