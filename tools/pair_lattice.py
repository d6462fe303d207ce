"""What the strength multipliers of one pair of node and soil can sum to.

They enter the node's columns only through the sums Σ y·a, a being a row's entries (sx, sy, t): a lattice, which the
rows span, of three dimensions, or of two without friction, where sx + sy stays 0."""

import functools

import rows as exact


class PairLattice:
    """basis: vectors (sx, sy, t) whose whole multiples are all sums; rows: each row's multiples of them."""

    def __init__(self, sides, soil):
        entries = [[row.get(k, 0) for k in range(3)] for row, _ in exact.soil_rows(sides, 0, soil)]
        vectors = [(sx + sy, t, sx) for sx, sy, t in entries]
        steps = triangular_basis(vectors)
        self.basis = [(sx, total - sx, t) for _, (total, t, sx) in steps]
        self.rows = [multiples(steps, vector) for vector in vectors]

    def sums(self, multiples):
        """(sx, sy, t) of multiples of the basis."""
        return tuple(sum(q * vector[k] for q, vector in zip(multiples, self.basis)) for k in range(3))


@functools.cache
def pair_lattice(sides, soil):
    return PairLattice(sides, soil)


def triangular_basis(vectors):
    """(place, vector) of a basis of the lattice that these vectors span: each vector is 0 before its place, and those
    that follow it are 0 there too."""
    rest, steps = [vector for vector in vectors if any(vector)], []
    for place in range(3):
        while sum(vector[place] != 0 for vector in rest) > 1:
            rest.sort(key=lambda vector: (vector[place] == 0, abs(vector[place])))
            first, *others = rest
            shorter = (subtracted(vector, first, vector[place] // first[place]) for vector in others)
            rest = [first, *{vector for vector in shorter if any(vector)}]
        steps += [(place, vector) for vector in rest if vector[place]]
        rest = [vector for vector in rest if not vector[place]]
    return steps


def subtracted(vector, other, factor):
    return tuple(c - factor * d for c, d in zip(vector, other))


def multiples(steps, vector):
    """The multiples of a triangular basis that a vector of its lattice is."""
    result = []
    for place, step in steps:
        result.append(vector[place] // step[place])
        vector = subtracted(vector, step, result[-1])
    return tuple(result)
