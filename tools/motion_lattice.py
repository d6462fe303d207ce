"""The whole motions of a mesh as a lattice: equality multipliers whose column sums the strength multipliers of each
node can answer.

Unknowns are the equality multipliers and, for each pair of node and soil that may deform, what its strength
multipliers sum to, as multiples of a basis (pair_lattice.py). Each column says that the two cancel. Where no pair of
a node may deform, its equality multipliers cancel alone."""

import math

import rows as exact
from capped_multipliers import with_friction, without_friction
from lattice import Measure, add_multiple, kernel
from multiplier_search import divided
from pair_lattice import pair_lattice
from plane_multipliers import plane_multipliers

FINE = 2.0**22  # the largest factor of a measure
STEP = 0.05  # no strength multiplier has less room than this, in whole steps


def lower_inverse(matrix):
    """L⁻¹ of a symmetric matrix L·Lᵀ, as a list of rows."""
    factor, inverse = [], []
    for i, line in enumerate(matrix):
        row = []
        for j in range(i):
            row.append((line[j] - sum(a * b for a, b in zip(row, factor[j]))) / factor[j][j])
        row.append(math.sqrt(max(line[i] - sum(a * a for a in row), 1e-12 * line[i])))
        factor.append(row)
        lines = [[*line, *[0.0] * (i - k)] for k, line in enumerate(inverse)]
        above = [-sum(row[k] * lines[k][j] for k in range(i)) / row[i] for j in range(i)]
        inverse.append([*above, 1 / row[i]])
    return inverse


class MotionLattice:
    """deform: numbers of the pairs that may deform."""

    def __init__(self, mesh, rows, deform):
        self.mesh, self.rows, self.columns = mesh, rows, 3 * len(mesh.nodes)
        self.pairs = [(node, mesh.soils[soil]) for node, soil in exact.strength_pairs(mesh)]
        self.first = len(rows) - len(self.pairs) * mesh.sides
        self.deform = sorted(deform)
        self.equality = [k for k, row in enumerate(rows[: self.first]) if row.fixed and any(row.entries.values())]
        self.most = exact.strength_multiplier(mesh)[-1]
        columns = {k: {k: 1} for k in self.equality}
        for pair in self.deform:
            for i, vector in enumerate(self.lattice_of(pair).basis):
                columns[self.name(pair, i)] = {(pair, k): c for k, c in enumerate(vector) if c}
        self.vectors = kernel(list(columns), list(self.equations()), Measure(columns))

    def lattice_of(self, pair):
        return pair_lattice(self.mesh.sides, self.pairs[pair][1])

    def name(self, pair, i):
        return len(self.rows) + 3 * pair + i

    def equations(self):
        """The columns, those of sx and sy as their sum and one of them, with smaller numbers."""
        columns = [{} for _ in range(self.columns)]
        for number in self.equality:
            for k, c in self.rows[number].entries.items():
                if c:
                    columns[k][number] = c
        for pair in self.deform:
            for i, vector in enumerate(self.lattice_of(pair).basis):
                for k, c in enumerate(vector):
                    if c:
                        columns[3 * self.pairs[pair][0] + k][self.name(pair, i)] = c
        for node in range(len(self.mesh.nodes)):
            sx, sy, t = columns[3 * node : 3 * node + 3]
            total = dict(sx)
            add_multiple(total, sy, 1)
            yield from (divided(equation) for equation in (total, t, sx) if equation)

    def strength_rows(self, pair):
        begin = self.first + pair * self.mesh.sides
        return range(begin, begin + self.mesh.sides)

    def effect(self, vector):
        """(W of the equality rows, m, pair -> multiples of its basis)."""
        w = m = 0
        multiples = {}
        for k, c in vector.items():
            if k < len(self.rows):
                w += self.rows[k].right * c
                m += self.rows[k].live * c
            else:
                pair, i = divmod(k - len(self.rows), 3)
                multiples.setdefault(pair, [0] * len(self.lattice_of(pair).basis))[i] = c
        return w, m, {pair: tuple(some) for pair, some in multiples.items()}

    def target(self, multipliers):
        """Real multipliers (row -> value) as values of the unknowns."""
        wanted = {k: multipliers[k] for k in self.equality}
        for pair in self.deform:
            parts = [(multipliers[k], row) for k, row in zip(self.strength_rows(pair), self.lattice_of(pair).rows)]
            for i in range(len(self.lattice_of(pair).basis)):
                wanted[self.name(pair, i)] = sum(y * row[i] for y, row in parts)
        return wanted

    def measure(self, multipliers, scale):
        """Of a motion's distance from these multipliers times the scale: what a pair's sums are off counts by the room
        that its multipliers have above 0."""
        roots, columns = {}, {k: {k: 1} for k in self.equality}
        for pair in self.deform:
            count = len(self.lattice_of(pair).basis)
            spread = [[0.0] * count for _ in range(count)]
            for k, row in zip(self.strength_rows(pair), self.lattice_of(pair).rows):
                square = (scale * multipliers[k]) ** 2 + STEP**2
                for i in range(count):
                    for j in range(count):
                        spread[i][j] += square * row[i] * row[j]
            roots[pair] = lower_inverse(spread)
        unit = FINE / max(abs(c) for root in roots.values() for line in root for c in line)
        for pair, root in roots.items():
            for i in range(len(root)):
                places = {(pair, j): round(unit * line[i]) for j, line in enumerate(root) if i < len(line)}
                columns[self.name(pair, i)] = {place: c for place, c in places.items() if c} or {(pair, i): 1}
        return Measure(columns)

    def answer(self, pair, multiples):
        """Strength multipliers of a pair that sum to these multiples of its basis, or None."""
        sides, soil = self.mesh.sides, self.pairs[pair][1]
        if soil.kind:
            return plane_multipliers(sides, soil, multiples, self.most) if soil.p == 0 else None
        sx, sy, t = self.lattice_of(pair).sums(multiples)
        size = 2 * exact.radius(sides) * soil.h
        vector = -t // size, (sx - sy) // size
        if soil.p == 0:
            return without_friction(sides, vector, self.most)
        return with_friction(sides, vector, (sx + sy) // (2 * soil.p), self.most)

    def finish(self, vector):
        """A claim's multipliers of a lattice vector whose pairs can all be answered."""
        result = [vector.get(k, 0) for k in range(len(self.rows))]
        for pair, multiples in self.effect(vector)[2].items():
            for k, y in zip(self.strength_rows(pair), self.answer(pair, multiples)):
                result[k] = y
        return result
