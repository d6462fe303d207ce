"""Whole multipliers of a node's strength rows from what they must sum to.

With steps S = (c-a, d-b) and cross products K of the polygon's sides, a node's multipliers y enter
its columns only through the vector V = Σ y·S and the number Z = Σ y·K (document 01, "Strength")."""

import functools
import heapq
import itertools
import math

from rows import corners


@functools.cache
def side_table(sides):
    """(step, cross product) of every side."""
    corner = corners(sides)
    pairs = zip(corner, corner[1:] + corner[:1])
    return [((c - a, d - b), a * d - b * c) for (a, b), (c, d) in pairs]


@functools.cache
def step_basis(sides):
    """Two vectors whose whole multiples make every sum of steps, and no other vector; the second has x 0."""
    steps = [step for step, _ in side_table(sides)]
    while sum(x != 0 for x, _ in steps) > 1:
        steps.sort(key=lambda step: (step[0] == 0, abs(step[0])))
        (x, y), *others = steps
        steps = [(x, y)] + [(a - a // x * x, b - a // x * y) for a, b in others]
    first = next(step for step in steps if step[0])
    return first, (0, math.gcd(*(y for x, y in steps if x == 0)))


@functools.cache
def small_vectors(sides):
    """Small vectors as sums of steps, by the least Z: vector -> (Z, side taken last)."""
    table = side_table(sides)
    reach = 3 * max(abs(part) for step, _ in table for part in step)
    best, queue = {}, [(0, (0, 0), None)]
    while queue:
        z, vector, side = heapq.heappop(queue)
        if vector in best:
            continue
        best[vector] = z, side
        for k, (step, cross) in enumerate(table):
            longer = vector[0] + step[0], vector[1] + step[1]
            if max(map(abs, longer)) <= reach and longer not in best:
                heapq.heappush(queue, (z + cross, longer, k))
    return best


def cross(v, w):
    return v[0] * w[1] - v[1] * w[0]


@functools.cache
def few_sides(sides):
    """Sums of at most three steps, by the least Z: vector -> (Z, the sides)."""
    table, best = side_table(sides), {}
    for count in range(4):
        for chosen in itertools.combinations_with_replacement(range(sides), count):
            x, y, z = (sum(part) for part in zip((0, 0, 0), *((*table[k][0], table[k][1]) for k in chosen)))
            if (x, y) not in best or z < best[x, y][0]:
                best[x, y] = z, chosen
    return best


def next_to(sides, vector):
    """The two sides on either side of a vector, and how many of each fit into it."""
    table = side_table(sides)
    for k in range(sides):
        first, second = table[k][0], table[(k + 1) % sides][0]
        if cross(first, vector) >= 0 and cross(vector, second) > 0:
            area = cross(first, second)
            return (k, cross(vector, second) // area), ((k + 1) % sides, cross(first, vector) // area)
    return (0, 0), (1, 0)


def nearby_multipliers(sides, vector):
    """y not below 0 with Σ y·S = vector: two sides next to it take most of it, at most three others the rest."""
    table, few, best = side_table(sides), few_sides(sides), None
    (k, a), (j, b) = next_to(sides, vector)
    for less_a, less_b in itertools.product(range(min(a, 40) + 1), range(min(b, 40) + 1)):
        counts = a - less_a, b - less_b
        rest = tuple(v - counts[0] * table[k][0][i] - counts[1] * table[j][0][i] for i, v in enumerate(vector))
        if rest in few:
            z = few[rest][0] + counts[0] * table[k][1] + counts[1] * table[j][1]
            if best is None or z < best[0]:
                best = z, counts, few[rest][1]
    if best is None:
        return None
    y = [0] * sides
    y[k], y[j] = best[1]
    for side in best[2]:
        y[side] += 1
    return y


def vector_multipliers(sides, vector):
    """y not below 0 with Σ y·S = vector and Z near its least, or None. With many sides a table of all small vectors
    would be too large."""
    if sides > 36:
        return nearby_multipliers(sides, vector)
    table = side_table(sides)
    y = [0] * sides
    for k in range(sides):
        (first, _), (second, _) = table[k], table[(k + 1) % sides]
        if vector != (0, 0) and cross(first, vector) >= 0 and cross(vector, second) > 0:
            area = cross(first, second)
            a, b = cross(vector, second) // area, cross(first, vector) // area
            y[k] += a
            y[(k + 1) % sides] += b
            vector = tuple(v - a * f - b * s for v, f, s in zip(vector, first, second))
            break
    best = small_vectors(sides)
    while vector != (0, 0):
        if vector not in best:
            return None
        side = best[vector][1]
        y[side] += 1
        vector = tuple(v - s for v, s in zip(vector, table[side][0]))
    return y


@functools.cache
def small_totals(sides):
    """For each remainder modulo the least pair total, the least total with it and its last pair."""
    table = side_table(sides)
    pairs = {2 * table[k][1]: k for k in range(sides // 2)}
    modulus = min(pairs)
    best, queue = {}, [(0, None)]
    while queue:
        total, pair = heapq.heappop(queue)
        if total % modulus in best:
            continue
        best[total % modulus] = total, pair
        for size in pairs:
            heapq.heappush(queue, (total + size, size))
    return pairs, modulus, best


def add_total(sides, y, total):
    """Adds opposite sides in pairs, which leave V alone, until Z has grown by `total`."""
    pairs, modulus, best = small_totals(sides)
    if total < 0 or total % modulus not in best or best[total % modulus][0] > total:
        return False
    counts = {modulus: (total - best[total % modulus][0]) // modulus}
    rest = best[total % modulus][0]
    while rest:
        size = best[rest % modulus][1]
        counts[size] = counts.get(size, 0) + 1
        rest -= size
    for size, count in counts.items():
        y[pairs[size]] += count
        y[pairs[size] + sides // 2] += count
    return True


def node_multipliers(sides, r, soil, sums):
    """Strength multipliers that undo the column sums (sx, sy, t) of one node, or None."""
    gx, gy, gt = sums
    scale = 2 * r * soil.h
    if gt % scale or (gx - gy) % scale:
        return None
    y = vector_multipliers(sides, (gt // scale, -(gx - gy) // scale))
    if y is None or soil.p == 0:
        return y if gx + gy == 0 else None
    if (gx + gy) % (2 * soil.p):
        return None
    total = -(gx + gy) // (2 * soil.p) - sum(m * k for m, (_, k) in zip(y, side_table(sides)))
    return y if add_total(sides, y, total) else None
