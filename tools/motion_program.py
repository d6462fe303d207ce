"""The integer program over a lattice of multipliers: its long vectors in whole multiples, the short ones in real ones.

Rounding then moves the short vectors alone, and each bound keeps as far away as that may move a multiplier. Without
short vectors nothing is left to be rounded."""

import math

import glpsol
from lattice import add_multiple
from polygon_sides import side_table

SHORT = 0.01  # a short vector's part of the length that the wanted multipliers have in each direction
USELESS = 10  # vectors at the end that are so many times longer than all the wanted multipliers are left out
FILLED = 0.99  # how much of their limit strength multipliers take that rounding still moves


class MotionProgram:
    """Over `start` plus multiples x of the basis vectors up to `count`, those before `first` in real numbers. margins:
    number of a row -> how far its multiplier keeps from its limits."""

    def __init__(self, motions, start, first=0, count=None, margins=None):
        self.motions, self.start, self.first, self.margins = motions, start, first, margins or {}
        self.vectors, self.moves = motions.lattice.vectors[:count], motions.moves[:count]
        self.names = [f" x{i}" for i in range(len(self.vectors))]

    def vector_lines(self):
        """(rows, bounds, costs) that make each V of real multipliers within the limits."""
        motions, steps = self.motions, {}
        lines, bounds, costs = [], [], []
        _, _, vectors = motions.effect(self.start)
        for i, (_, _, changes) in enumerate(self.moves):
            for pair, change in changes.items():
                steps.setdefault(pair, []).append((i, change))
        table, most = side_table(motions.mesh.sides), motions.rows[motions.first].limits[-1]
        most = math.floor(FILLED * most) if self.first else most
        for pair, changes in steps.items():
            at, price = vectors.get(pair, (0, 0)), motions.price[pair]
            costs += [f"{price * z:+d} y{pair}_{k}" for k, (_, z) in enumerate(table) if price]
            for place in range(2):
                terms = [f"{step[place]:+d} y{pair}_{k}" for k, (step, _) in enumerate(table) if step[place]]
                terms += [f"{-change[place]:+d} x{i}" for i, change in changes if change[place]]
                lines.append(f" {' '.join(terms)} = {at[place]}")
            bounds += [f" 0 <= y{pair}_{k} <= {most}" for k in range(motions.mesh.sides)]
        return lines, bounds, costs

    def limit_lines(self):
        entries, rows = {}, self.motions.rows
        for i, vector in enumerate(self.vectors):
            for k, c in vector.items():
                if k < len(rows):
                    entries.setdefault(k, []).append(f"{c:+d} x{i}")
        for k, terms in entries.items():
            limits, at, margin = rows[k].limits, self.start.get(k, 0), self.margins.get(k, 0.0)
            yield f" {' '.join(terms)} >= {limits[0] - at + margin:.15g}"
            yield f" {' '.join(terms)} <= {limits[-1] - at - margin:.15g}"

    def text(self, ratio, low, high):
        """Least W - ratio·m, with low ≤ m ≤ high."""
        lines, bounds, costs = self.vector_lines()
        _, m, _ = self.motions.effect(self.start)
        costs = [f"{dw - ratio * dm:+.15g} x{i}" for i, (dw, dm, _) in enumerate(self.moves) if dw - ratio * dm] + costs
        terms = " ".join(f"{dm:+d} x{i}" for i, (_, dm, _) in enumerate(self.moves) if dm)
        lines += [*self.limit_lines(), f" {terms} >= {low - m:.15g}", f" {terms} <= {high - m:.15g}"]
        parts = ["Minimize", " cost: " + "\n ".join(costs or ["0 x0"]), "Subject To", *lines, "Bounds"]
        whole = self.names[self.first :]
        return "\n".join(parts + [name + " free" for name in self.names] + bounds + ["General", *whole, "End", ""])

    def solve(self, ratio, low, high, seconds, options=()):
        """(a lattice vector, real values of the short vectors' part), or None, and whether the search came to its
        end."""
        values, ended = glpsol.solve_whole(self.text(ratio, low, high), seconds, options)
        if values is None:
            return None, ended
        vector, wanted = dict(self.start), {}
        for i, other in enumerate(self.vectors):
            multiple = values.get(f"x{i}", 0.0)
            add_multiple(*((vector, other, round(multiple)) if i >= self.first else (wanted, other, multiple)))
        return (vector, wanted), ended

    def rounded(self, vector, wanted):
        """The lattice vector with its short part rounded."""
        result = dict(vector)
        add_multiple(result, self.motions.lattice.nearest(wanted), 1)
        return result


def useful_vectors(motions, size):
    """How many vectors at the beginning of the basis can be part of multipliers of this length."""
    squares = motions.lattice.squares
    return max((i + 1 for i, square in enumerate(squares) if square <= (USELESS * size) ** 2), default=0)


def moves_load(motions, wanted):
    """Whether any of these vectors has an m: else there are no multipliers as the wanted ones."""
    return any(dm for _, dm, _ in motions.moves[: useful_vectors(motions, motions.length(wanted))])


def mixed_program(motions, wanted, margin):
    """The program whose short vectors are real. wanted: the solver's multipliers as unknowns of the lattice, scaled
    into the limits; margin: in what rounding moves a multiplier by, root mean square."""
    squares, size = motions.lattice.squares, motions.length(wanted)
    count, first = useful_vectors(motions, size), 0
    while first < count - 1 and squares[first] * len(squares) <= (SHORT * size) ** 2:
        first += 1
    images, margins = motions.lattice.orthogonal_images()[:first], {}
    for k in (k for k in motions.image if k < len(motions.rows)):
        moved = math.hypot(*(image.get(k, 0.0) for image in images)) / motions.image[k][k]
        margins[k] = margin * moved / math.sqrt(12)
    return MotionProgram(motions, {}, first, count, margins)
