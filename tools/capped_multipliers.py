"""Whole multipliers of a pair's polygon sides, none above a limit, from what they must sum to: V and Z
(polygon_sides.py).

Without friction Z is to be as small as it can be. With friction it is given. Sums of few sides that make V differ in
Z, and opposite sides in pairs add the rest; so all V and Z can be answered where Z is well above its least for V, and
fewer the less it is."""

import functools
import itertools
import math

from polygon_sides import cross, side_table, small_totals, vector_multipliers

FEW = {12: 6, 20: 5, 36: 4, 108: 3}  # by the number of sides, how many make up a rest
KEPT = 16  # what is kept free below the limit for them
BACK = 5  # how many of the two sides next to V may be taken back again


@functools.cache
def few_sums(sides):
    """V -> [(Z, sides)] of all sums of few sides, those of the fewest first."""
    table, found = side_table(sides), {}
    for count in range(FEW[sides] + 1):
        for chosen in itertools.combinations_with_replacement(range(sides), count):
            x, y, z = (sum(part) for part in zip((0, 0, 0), *((*table[k][0], table[k][1]) for k in chosen)))
            found.setdefault((x, y), {}).setdefault(z, chosen)
    return {vector: list(by_z.items()) for vector, by_z in found.items()}


def two_sides(table, vector, i, j):
    """How many of the sides i and j make up a vector."""
    first, second = table[i][0], table[j][0]
    area = cross(first, second)
    return (cross(vector, second) / area, cross(first, vector) / area) if area > 0 else (math.inf, math.inf)


def most_of(sides, vector, most):
    """(y, (side, count), (side, count)): sides filled to the limit on both sides of a vector, and how many of the
    next two ones make up the rest; or None."""
    table, y = side_table(sides), [0] * sides
    for i in range(sides):
        j = (i + 1) % sides
        if cross(table[i][0], vector) >= 0 and cross(vector, table[j][0]) > 0:
            break
    a, b = two_sides(table, vector, i, j)
    while max(a, b) > most:
        if max(a, b) == math.inf:
            return None
        k = i if a > b else j
        y[k] = most
        vector = tuple(v - most * step for v, step in zip(vector, table[k][0]))
        i, j = ((i - 1) % sides, j) if k == i else (i, (j + 1) % sides)
        a, b = two_sides(table, vector, i, j)
    return y, (i, max(0, math.floor(a))), (j, max(0, math.floor(b)))


def what_is_left(sides, y, vector):
    table = side_table(sides)
    return tuple(v - sum(m * step[k] for m, (step, _) in zip(y, table) if m) for k, v in enumerate(vector))


def without_friction(sides, vector, most):
    """y with Σ y·S = vector and Z near its least, or None."""
    y = vector_multipliers(sides, vector)
    if y is None or max(y) <= most:
        return y
    filled = most_of(sides, vector, most - KEPT)
    if filled is None:
        return None
    y, *ends = filled
    for k, count in ends:
        y[k] += max(0, count - BACK)
    rest = vector_multipliers(sides, what_is_left(sides, y, vector))
    y = rest and [a + b for a, b in zip(y, rest)]
    return y if y and max(y) <= most else None


@functools.cache
def pairs_by_total(sides):
    """2·Z of a side -> the sides of the first half turn that have it."""
    found = {}
    for k, (_, z) in enumerate(side_table(sides)[: sides // 2]):
        found.setdefault(2 * z, []).append(k)
    return found


@functools.cache
def whole_turn(sides):
    """(Z of all sides together, more than which is left for opposite pairs to sum up to)."""
    _, modulus, best = small_totals(sides)
    return sum(z for _, z in side_table(sides)), max(least for least, _ in best.values()) + modulus


def pair_counts(sides, total):
    """(how many of each side, how many opposite pairs of each Z besides) that sum up to the total, or None."""
    turn, kept = whole_turn(sides)
    turns = max(0, (total - kept) // turn)
    total -= turns * turn
    _, modulus, best = small_totals(sides)
    least, pair = best.get(total % modulus, (math.inf, None))
    if total < least:
        return None
    counts = {modulus: (total - least) // modulus}
    while pair:
        counts[pair] = counts.get(pair, 0) + 1
        least -= pair
        pair = best[least % modulus][1]
    return turns, counts


def with_pairs(sides, y, turns, counts, most):
    """y with so many of each side and these opposite pairs, spread over those of the same Z, or None where they don't
    fit."""
    y, half = [m + turns for m in y], sides // 2
    for size, count in counts.items():
        places = pairs_by_total(sides)[size]
        shares = [-(-count // len(places))] * len(places) + [count] * len(places)
        for k, share in zip(places * 2, shares):
            more = max(0, min(share, count, most - max(y[k], y[k + half])))
            y[k], y[k + half], count = y[k] + more, y[k + half] + more, count - more
        if count:
            return None
    return y


def with_friction(sides, vector, total, most):
    """y with Σ y·S = vector and Σ y·K = total, or None."""
    filled = most_of(sides, vector, most - KEPT)
    if filled is None:
        return None
    whole, (i, a), (j, b) = filled
    for back_i, back_j in itertools.product(range(BACK), repeat=2):
        if 0 < min(back_i, back_j) != max(back_i, back_j):
            continue
        y = list(whole)
        y[i] += max(0, a - back_i)
        y[j] += max(0, b - back_j)
        left = total - sum(m * z for m, (_, z) in zip(y, side_table(sides)) if m)
        for z, chosen in few_sums(sides).get(what_is_left(sides, y, vector), ()) if left >= 0 else ():
            counts = pair_counts(sides, left - z)
            answer = counts and with_pairs(sides, added(y, chosen), *counts, most)
            if answer and max(answer) <= most:
                return answer
    return None


def added(y, chosen):
    result = list(y)
    for k in chosen:
        result[k] += 1
    return result
