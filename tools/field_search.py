"""Fields of a mesh whose equality rows have few whole solutions, by an integer search.

Some vectors of a short basis may be so long, against the room that the strength rows have, that only a few multiples
of them come into question, and rounding hardly ever meets those. glpsol searches these multiples with all others as
real numbers; rounding then moves only the others, and strength rows are tightened by what that may move them."""

import math

import glpsol
from linear_program import terms

DENSE = 0.3  # rounding of the other vectors may take this part of each row's room
MANY = 30  # a search for more multiples than this isn't tried


def long_vectors(rounding):
    """(how many vectors at the beginning of the basis can be rounded, the part of the room that this takes)."""
    square, unit = 0.0, rounding.unit * rounding.top
    for count, length in enumerate(rounding.lattice.squares):
        more = square + length / (12 * unit * unit)
        if more > DENSE * DENSE:
            return count, math.sqrt(square)
        square = more
    return len(rounding.lattice.squares), math.sqrt(square)


class FieldProgram:
    """The program: stresses, l and n as parts of the largest n (unknowns as in the equality rows), and q, the
    multiples of the vectors from `first` on. Greatest l - load·n, for a field that carries that load at least."""

    def __init__(self, rounding, equations, load):
        self.rounding, self.load, self.columns = rounding, load, rounding.columns
        self.count = len(rounding.lattice.vectors)
        self.first, self.taken = long_vectors(rounding)
        self.names = [f"x{k}" for k in range(self.columns)] + ["l", "n"]
        self.lines = [f"{terms(entries, self.names)} = 0" for entries in equations]
        self.lines += [*self.strength_lines(), f"l {-load:+.17g} n >= 0", *self.multiple_lines()]

    def strength_lines(self):
        path = self.rounding.path
        for number, room, _ in path.rooms(self.rounding.field):
            row = self.rounding.rows[number]
            entries = {k: c for k, c in row.entries.items() if c} | {self.columns + 1: -row.right}
            divisor = math.gcd(*entries.values())
            entries = {k: c / divisor for k, c in entries.items()}
            yield f"{terms(entries, self.names)} <= {-self.taken * room / divisor:.17g}"

    def multiple_lines(self):
        """The multiple of each long vector, as the orthogonalised ones tell it."""
        lattice, top = self.rounding.lattice, self.rounding.top
        images = lattice.orthogonal_images()
        for i in range(self.first, self.count):
            entries = {}
            for k, places in lattice.measure.columns.items():
                share = sum(c * images[i].get(place, 0.0) for place, c in places.items()) * top / lattice.squares[i]
                if abs(share) > 1e-12:
                    entries[k] = share
            others = [f"{-lattice.mu[j][i]:+.17g} q{j}" for j in range(i + 1, self.count) if lattice.mu[j][i]]
            yield " ".join([terms(entries, self.names), f"-1 q{i}", *others, "= 0"])

    def text(self):
        multiples = [f" q{i}" for i in range(self.first, self.count)]
        parts = ["Maximize", f" more: l {-self.load:+.17g} n", "Subject To", *(" " + line for line in self.lines)]
        parts += ["Bounds", *(f" {name} free" for name in self.names[:-1]), " 0 <= n <= 1"]
        return "\n".join([*parts, *(name + " free" for name in multiples), "General", *multiples, "End", ""])

    def solve(self, seconds):
        """((n, l, stresses), proved): a whole solution of the equality rows, or None."""
        values, proved = glpsol.solve_whole(self.text(), seconds)
        if not values or values["n"] <= 0:
            return None, proved
        wanted = {k: self.rounding.top * values.get(name, 0.0) for k, name in enumerate(self.names)}
        return self.rounding.nearest(wanted), proved


def searched_field(rounding, equations, load, seconds):
    """(a field that carries this load at least, maybe not quite all its strength rows met, or None; whether the search
    came to its end)."""
    first, _ = long_vectors(rounding)
    if not 0 < len(rounding.lattice.vectors) - first <= MANY:
        return None, False
    return FieldProgram(rounding, equations, load).solve(seconds)
