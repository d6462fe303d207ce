"""Fields in the middle of those near the optimum: the central path of a mesh's linear program.

Of the fields that meet the equality rows, one makes weight·load + Σ log(room of each strength row) greatest. Its load
is below the optimum by at most (number of rows)/weight, and it leaves room in every row. Newton's method finds it, in
coordinates of a basis of the equality rows' solutions (Boyd and Vandenberghe, Convex Optimization, 10.2 and 11.2)."""

import math

from linear_program import Solution

STEPS = 60  # of Newton's method at most
CENTRED = 1e-3  # a Newton step that gains less than this ends it
STAY = 0.9  # how much of the way to the first row without room a step goes
ROUNDS = 100  # in which the search for a field with room in every row must come to an end
SHIFT = 1e-5  # rooms are widened by this part of the stresses to begin with
NO_SHIFT = 1e-8  # where so little widening is still needed, no field has room in every row
NO_ROOM = 1e-6  # such a row has less room than this then, as a part of the stresses


def products(a, b):
    return sum(map(float.__mul__, a, b))


def factored(matrix):
    """The Cholesky factor, as a list of rows, of a symmetric matrix whose diagonal is 1. A direction that hardly
    differs from those before it is kept still."""
    factor = []
    for i, line in enumerate(matrix):
        row = []
        for j in range(i):
            row.append((line[j] - products(row, factor[j])) / factor[j][j])
        rest = 1.0 - products(row, row)
        row.append(math.sqrt(rest) if rest > 1e-13 else 1e9)
        factor.append(row)
    return factor


def solved(factor, right):
    """x with F·Fᵀ·x = right."""
    forth = []
    for row, value in zip(factor, right):
        forth.append((value - products(row, forth)) / row[-1])
    for i in range(len(factor) - 1, -1, -1):
        row = factor[i]
        value = forth[i] = forth[i] / row[i]
        for j in range(i):
            forth[j] -= value * row[j]
    return forth


class NodeRows:
    """The strength rows of one node, as a·stresses ≤ b, each with its length |a|; no stress is above `box`."""

    def __init__(self, box):
        self.rows, self.box = [], box

    def rooms(self, stresses, shift):
        x, y, t = stresses
        return [b + shift * size - a0 * x - a1 * y - a2 * t for a0, a1, a2, b, size in self.rows]

    def slopes(self, stresses, shift):
        """Gradient (3) and second derivatives (6, by rows of the upper triangle) of -Σ log(room)."""
        g0 = g1 = g2 = h00 = h01 = h02 = h11 = h12 = h22 = 0.0
        for (a0, a1, a2, _, _), room in zip(self.rows, self.rooms(stresses, shift)):
            u0, u1, u2 = a0 / room, a1 / room, a2 / room
            g0, g1, g2 = g0 + u0, g1 + u1, g2 + u2
            h00, h01, h02 = h00 + u0 * u0, h01 + u0 * u1, h02 + u0 * u2
            h11, h12, h22 = h11 + u1 * u1, h12 + u1 * u2, h22 + u2 * u2
        gradient, walls = [g0, g1, g2], []
        for i, value in enumerate(stresses):
            below, above = 1 / (self.box + value), 1 / (self.box - value)
            gradient[i] += above - below
            walls.append(above * above + below * below)
        return gradient, (h00 + walls[0], h01, h02, h11 + walls[1], h12, h22 + walls[2])

    def longest(self, stresses, change, shift):
        """How many times the change can be made until a row has no room left."""
        x, y, t = change
        pace = [a0 * x + a1 * y + a2 * t for a0, a1, a2, _, _ in self.rows]
        left = [room / fall for room, fall in zip(self.rooms(stresses, shift), pace) if fall > 0]
        walls = [(self.box - s if c > 0 else self.box + s) / abs(c) for s, c in zip(stresses, change) if c]
        return min(left + walls, default=math.inf)


class CentralPath:
    """rows: (number, row) of the strength rows. vectors: a basis of the solutions of the equality rows, homogeneous
    in stresses, l (the unknown `columns`) and n (the next one), which stays 1 here."""

    def __init__(self, columns, rows, vectors, box, margin=0.0):
        self.columns, self.count = columns, len(rows)
        self.nodes = [NodeRows(box) for _ in range(columns // 3)]
        self.numbers = [[] for _ in self.nodes]
        for number, row in rows:
            node = min(row.entries) // 3
            a = [float(row.entries.get(3 * node + i, 0)) for i in range(3)]
            self.nodes[node].rows.append((*a, row.right * (1 - margin), math.hypot(*a)))
            self.numbers[node].append(number)
        self.loads = [float(vector.get(columns, 0)) for vector in vectors]
        self.ns = [float(vector.get(columns + 1, 0)) for vector in vectors]
        self.at = [[] for _ in self.nodes]
        for i, vector in enumerate(vectors):
            here = {}
            for k, c in vector.items():
                if k < columns:
                    here.setdefault(k // 3, [0.0, 0.0, 0.0])[k % 3] = float(c)
            for node, parts in here.items():
                self.at[node].append((i, *parts))

    def by_node(self, stresses):
        return [stresses[k : k + 3] for k in range(0, self.columns, 3)]

    def derivatives(self, stresses, weight, shift):
        """Gradient and second derivatives in coordinates of the basis, the latter as a lower triangle."""
        gradient = [-weight * load for load in self.loads]
        second = [[0.0] * (i + 1) for i in range(len(gradient))]
        for node, here, at in zip(self.nodes, self.by_node(stresses), self.at):
            (g0, g1, g2), (h00, h01, h02, h11, h12, h22) = node.slopes(here, shift)
            for i, x, y, t in at:
                gradient[i] += g0 * x + g1 * y + g2 * t
                u0, u1, u2 = h00 * x + h01 * y + h02 * t, h01 * x + h11 * y + h12 * t, h02 * x + h12 * y + h22 * t
                line = second[i]
                for j, x, y, t in at:
                    if j > i:
                        break
                    line[j] += u0 * x + u1 * y + u2 * t
        return gradient, second

    def newton(self, stresses, weight, shift):
        """(change of the stresses, of the load, what the step gains)."""
        gradient, second = self.derivatives(stresses, weight, shift)
        scale = [1 / math.sqrt(line[-1]) if line[-1] > 0 else 0.0 for line in second]
        factor = factored([[c * s * scale[i] for c, s in zip(line, scale)] for i, line in enumerate(second)])
        along = solved(factor, [c * s for c, s in zip(gradient, scale)])
        aside = solved(factor, [c * s for c, s in zip(self.ns, scale)])
        ns = [c * s for c, s in zip(self.ns, scale)]
        keep = products(ns, along) / (products(ns, aside) or 1.0)
        step = [s * (keep * b - a) for a, b, s in zip(along, aside, scale)]
        changes = []
        for at in self.at:
            changes += [sum(step[parts[0]] * parts[1 + i] for parts in at) for i in range(3)]
        return changes, products(self.loads, step), -products(gradient, step)

    def centred(self, field, weight, shift=0.0):
        """The point of the path, from a field that has room in every row."""
        stresses, load = field.stresses, field.load
        for _ in range(STEPS):
            changes, more, gain = self.newton(stresses, weight, shift)
            if gain < CENTRED:
                break
            steps = zip(self.nodes, self.by_node(stresses), self.by_node(changes))
            part = min(1.0, STAY * min(node.longest(here, change, shift) for node, here, change in steps))
            stresses = [s + part * c for s, c in zip(stresses, changes)]
            load += part * more
        return Solution(stresses, load, None)

    def inside(self, field, weight):
        """(a field with room in every row, no numbers), or (None, the numbers of the rows that have none in any).

        Rooms are widened by a shift, which falls as far as the middle of the widened ones lets it."""
        size = sum(map(abs, field.stresses)) / self.columns or 1.0
        shift = SHIFT * size - min(0.0, self.least_room(field, 0.0))
        for _ in range(ROUNDS):
            field = self.centred(field, weight, shift)
            least = self.least_room(field, shift)
            if least > shift:
                return field, ()
            if shift < NO_SHIFT * size:
                break
            shift -= STAY * least
        return None, self.without_room(field, NO_ROOM * size)

    def rooms(self, field, shift=0.0):
        """(number, room, the row's length) of each row."""
        for node, here, numbers in zip(self.nodes, self.by_node(field.stresses), self.numbers):
            for number, room, row in zip(numbers, node.rooms(here, shift), node.rows):
                yield number, room, row[-1]

    def least_room(self, field, shift):
        """As a stress."""
        return min(room / size for _, room, size in self.rooms(field, shift))

    def without_room(self, field, least):
        return {number for number, room, size in self.rooms(field) if room < least * size}
