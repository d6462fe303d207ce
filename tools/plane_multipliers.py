"""Whole multipliers of a pair whose soil is stronger one way and has no friction, from what they must sum to.

Its rows are planes, and their sums have two dimensions. Two rows make up any sum at the least W, in real numbers;
whole ones near them, and somewhat above 0 so that rounding keeps them there, are those of a lattice: multipliers
together with their sums, which count for so much that they come out exact."""

import functools
import math

import rows as exact
from lattice import Lattice, Measure, add_multiple, kernel
from pair_lattice import pair_lattice

HEAVY = 2**16  # what an error of a sum counts, in errors of a multiplier
ABOVE = (0, 0.5, 1.0, 1.5, 2.0, 3.0, 4.0, 6.0, 9.0, 13.0)  # how far above 0 the real ones are kept


@functools.cache
def cheapest_rows(sides, soil):
    """(side, its multiples of the basis, price), of rows with the same ones the cheapest."""
    rights = [right for _, right in exact.soil_rows(sides, 0, soil)]
    best = {}
    for k in sorted(range(sides), key=lambda k: -rights[k]):
        best[pair_lattice(sides, soil).rows[k]] = k
    return [(k, multiples, rights[k]) for multiples, k in best.items() if any(multiples)]


@functools.cache
def whole_sums(sides, soil):
    """The lattice of multipliers, by side, and their sums, numbered from `sides` on."""
    rows = cheapest_rows(sides, soil)
    names = [sides, sides + 1]
    columns = {k: {k: 1} for k, *_ in rows} | {name: {name: HEAVY} for name in names}
    equations = [{k: multiples[i] for k, multiples, _ in rows if multiples[i]} | {names[i]: -1} for i in range(2)]
    measure = Measure(columns)
    return Lattice(kernel(list(columns), equations, measure), measure)


def cheapest_two(sides, soil, wanted):
    """side -> real multiplier, of the two that make up the sum at the least W."""
    rows, (x, y), best = cheapest_rows(sides, soil), wanted, (math.inf, None)
    for n, (i, (ax, ay), first) in enumerate(rows):
        for j, (bx, by), second in rows[:n]:
            area = ax * by - ay * bx
            if area:
                a, b = (x * by - y * bx) / area, (ax * y - ay * x) / area
                if min(a, b) >= 0 and a * first + b * second < best[0]:
                    best = a * first + b * second, {i: a, j: b}
    return best[1]


@functools.cache
def exchanges(sides, soil):
    """Whole changes of multipliers, by side, that sum to nothing and lower W."""
    price = {k: right for k, _, right in cheapest_rows(sides, soil)}
    short = [vector for vector in whole_sums(sides, soil).vectors if max(vector) < sides]
    found = [dict(vector) for vector in short]
    for i, vector in enumerate(short):
        for other in short[:i]:
            for factor in (1, -1):
                found.append(dict(vector))
                add_multiple(found[-1], other, factor)
    priced = [(sum(price[k] * c for k, c in change.items()), change) for change in found]
    return [{k: c if w < 0 else -c for k, c in change.items()} for w, change in priced if w]


def cheaper(sides, soil, y, most):
    """y with every exchange taken that lowers W, as often as it can be."""
    better = True
    while better:
        better = False
        for change in exchanges(sides, soil):
            times = min((y[k] // -c if c < 0 else (most - y[k]) // c) for k, c in change.items())
            if times > 0:
                better = True
                for k, c in change.items():
                    y[k] += times * c
    return y


def plane_multipliers(sides, soil, wanted, most):
    """y not below 0, of all rows of the pair, whose sum is `wanted`, as multiples of the basis, or None."""
    if not any(wanted):
        return [0] * sides
    real, found = cheapest_two(sides, soil, wanted), []
    for above in ABOVE if real else ():
        target = {k: real.get(k, 0.0) + above for k, *_ in cheapest_rows(sides, soil)}
        target |= {sides + i: float(q) for i, q in enumerate(wanted)}
        whole = whole_sums(sides, soil).nearest(target)
        y = [whole.get(k, 0) for k in range(sides)]
        if min(y) >= 0 and max(y) <= most and all(whole.get(sides + i, 0) == q for i, q in enumerate(wanted)):
            found.append((sum(y[k] * price for k, _, price in cheapest_rows(sides, soil)), y))
    return cheaper(sides, soil, min(found)[1], most) if found else None
