"""Real multipliers in the middle of those near the optimum: the central path of a mesh's linear program, seen from
the multipliers.

Where the field is on the path, 1 over (weight times its room) is each strength row's multiplier: all are above 0, and
W/m is above the optimum by (number of rows)/weight. The equality multipliers are the least ones that cancel their
column sums. Which multipliers cancel is no matter of the rows' right sides, so these may be widened."""

import math

from central_path import CentralPath, factored, solved
from lattice import Measure, dot, kernel
from whole_field import asked_equalities, equations_of

WIDE = 1e3  # no stress is above this many times the largest of the optimum
FAR = 100  # a gap so wide that the load counts for little
SHIFT = 1e-3  # where a row has no room in any field, all are widened by this part of the stresses
LEAST = 1e-3  # no multiplier falls below this part of its value at the field, where that isn't quite on the path
REFINED = 3  # times that the equality multipliers are corrected


def field_vectors(rows, columns):
    """A basis of the fields that meet the equality rows."""
    unknowns = range(columns + 2)
    return kernel(unknowns, equations_of(asked_equalities(rows), columns), Measure({k: {k: 1} for k in unknowns}))


class DualPath:
    """Of the pairs that may deform in a lattice of motions; the strength of the others is left out. vectors: a basis of
    the fields that meet the equality rows."""

    def __init__(self, motions, solution, vectors):
        self.rows, self.columns, self.size = motions.rows, motions.columns, max(abs(solution.load), 1e-9)
        strength = [(k, self.rows[k]) for pair in motions.deform for k in motions.strength_rows(pair)]
        self.path = CentralPath(self.columns, strength, vectors, WIDE * max(map(abs, solution.stresses)))
        self.field, _ = self.path.inside(solution, self.weight(FAR))
        self.shift = 0.0
        if self.field is None:
            self.shift = SHIFT * sum(map(abs, solution.stresses)) / self.columns
            self.field = self.path.centred(solution, self.weight(FAR), self.shift)
        self.equality = motions.equality
        self.entries = [{**self.rows[k].entries, self.columns: self.rows[k].live} for k in self.equality]
        self.lengths = [math.hypot(*entries.values()) for entries in self.entries]
        self.factor = factored([self.row_products(i) for i in range(len(self.equality))])

    def row_products(self, i):
        """Of equality row i with those up to it, all of length 1."""
        before = zip(self.entries[:i], self.lengths)
        return [dot(self.entries[i], entries) / (self.lengths[i] * length) for entries, length in before] + [1.0]

    def weight(self, gap):
        return self.path.count / (gap * self.size)

    def multipliers(self, gap):
        """row -> real multiplier with m = 1, where W/m is above the optimum by this part of it."""
        weight = self.weight(gap)
        self.field = self.path.centred(self.field, weight, self.shift)
        changes, *_ = self.path.newton(self.field.stresses, weight, self.shift)
        result, sums = {}, {self.columns: -1.0}
        for number, room, _ in self.path.rooms(self.field, self.shift):
            entries = self.rows[number].entries
            pace = sum(c * changes[k] for k, c in entries.items()) / room
            result[number] = y = max(LEAST, 1 + pace) / (weight * room)
            for k, c in entries.items():
                sums[k] = sums.get(k, 0.0) + y * c
        return result | self.cancelling(sums)

    def cancelling(self, sums):
        """The least equality multipliers, by row, whose columns sum to the opposite of these."""
        result, left = [0.0] * len(self.equality), {k: -total for k, total in sums.items()}
        for _ in range(REFINED):
            asked = [dot(entries, left) / length for entries, length in zip(self.entries, self.lengths)]
            changes = [x / length for x, length in zip(solved(self.factor, asked), self.lengths)]
            result = [x + change for x, change in zip(result, changes)]
            for entries, change in zip(self.entries, changes):
                for k, c in entries.items():
                    left[k] = left.get(k, 0.0) - change * c
        return dict(zip(self.equality, result))
