"""Floats as whole numbers that meet equations exactly: what rounding of fields and of multipliers share.

Two quick ways:
- a vertex of a small mesh has fractions with a small common denominator: find it, and multiply;
- else solve the equations for some unknowns (the dependent ones) in terms of the others (the free ones), round only
  the free ones, and let the dependent ones follow.
lattice.py has a slower one that comes nearer."""

import math
from fractions import Fraction

from lattice import add_multiple


def common_denominator(values, largest):
    """The smallest n up to `largest` that makes every value whole, as far as floats tell."""
    n = 1
    for value in values:
        fraction = Fraction(n * value).limit_denominator(max(1, largest // n))
        if abs(fraction - Fraction(n * value)) > 1e-6:
            return None
        n *= fraction.denominator
    return n


class Equalities:
    """Equations Σ c·x = n·right solved for dependent unknowns in terms of free ones.

    solved: dependent unknown -> ({free unknown: fraction}, right side at n = 1)."""

    def __init__(self, equations):
        self.solved = {}
        for entries, right in equations:
            self.add({k: Fraction(c) for k, c in entries.items() if c}, Fraction(right))
        unit = [f.denominator for entries, _ in self.solved.values() for f in entries.values()]
        rights = [right.denominator for _, right in self.solved.values()]
        # Free unknowns that are multiples of this make every dependent one whole.
        self.unit = math.lcm(1, *unit)
        self.right_unit = math.lcm(1, *rights)

    def add(self, entries, right):
        for k in [k for k in entries if k in self.solved]:
            factor = entries.pop(k)
            others, constant = self.solved[k]
            right -= factor * constant
            add_multiple(entries, others, factor)
        if not entries:
            if right:
                raise SystemExit("the equality rows contradict each other")
            return
        pivot = min(entries, key=lambda k: (abs(entries[k].numerator * entries[k].denominator), k))
        factor = entries.pop(pivot)
        solved = {k: -c / factor for k, c in entries.items()}
        constant = right / factor
        for dependent, (others, old) in self.solved.items():
            if pivot in others:
                share = others.pop(pivot)
                add_multiple(others, solved, share)
                self.solved[dependent] = others, old + share * constant
        self.solved[pivot] = solved, constant

    def whole(self, unknowns, wanted, n, unit):
        """Values near `wanted`: free ones rounded to multiples of `unit`, dependent ones exact."""
        values = {}
        for k in unknowns:
            if k not in self.solved:
                values[k] = unit * round(wanted[k] / unit)
        for k, (entries, right) in self.solved.items():
            values[k] = n * right + sum(c * values[free] for free, c in entries.items())
        return [int(values[k]) for k in unknowns]
