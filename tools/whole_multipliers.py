"""Multipliers in whole numbers, near the optimum of a mesh's linear program.

A column sum is 0 or it isn't, so rounding must not disturb any. Four ways:
- the optimum itself, where its fractions are short;
- where the mesh has nice numbers, round the equality multipliers, the motion of the mesh, and let strength multipliers
  of each node follow;
- else round in the lattice of whole multipliers, and search there for better ones (multiplier_search.py);
- and round the middle of those near the optimum in the lattice of whole motions (motion_search.py)."""

import math

import glpsol
import rows as exact
from motion_search import moved_multipliers
from multiplier_search import NEAR, Finder, largest_scale, limit, multipliers_fit
from polygon_sides import node_multipliers
from whole_numbers import Equalities, common_denominator

SPREADS = (1e-8, 1e-7, 3e-7, 1e-6, 3e-6, 1e-5, 3e-5, 1e-4, 3e-4, 1e-3)
FILLINGS = (0.95, 0.8, 0.6, 0.4, 0.2)
USELESS = 1.0  # multipliers whose limit is farther than this from the optimum, relative to it, are none


def vertex_multipliers(rows, columns, multipliers):
    scale = common_denominator(multipliers, int(largest_scale(rows, multipliers)))
    if scale is None:
        return None
    whole = [round(scale * y) for y in multipliers]
    return whole if multipliers_fit(rows, columns, whole) else None


def flow_rows(rows):
    """The numbers of the equality rows that ask something: their multipliers are the motion of the mesh."""
    return [number for number, row in enumerate(rows) if row.kind != "strength" and row.fixed]


def soils_around(mesh):
    """For each node the pairs' (number, soil)."""
    around = [[] for _ in mesh.nodes]
    for number, (node, soil) in enumerate(exact.strength_pairs(mesh)):
        around[node].append((number, mesh.soils[soil]))
    return around


def multiplier_unit(mesh, rows):
    """Equality multipliers that are multiples of this give every node a whole V and Z."""
    divisors = [0] * len(mesh.nodes)
    for number in flow_rows(rows):
        for k, c in rows[number].entries.items():
            divisors[k // 3] = math.gcd(divisors[k // 3], c)
    unit = 1
    for pairs, divisor in zip(soils_around(mesh), divisors):
        for _, soil in pairs:
            needed = math.lcm(4 * exact.radius(mesh.sides) * soil.h, 4 * soil.p or 1)
            unit = math.lcm(unit, needed // math.gcd(needed, divisor))
    return unit


def trace_equations(mesh, rows):
    """At a node without friction the sums of sx and of sy are opposite: the flow keeps its volume."""
    equations = [{} for _ in mesh.nodes]
    for number in flow_rows(rows):
        for k, c in rows[number].entries.items():
            if k % 3 < 2:
                entries = equations[k // 3]
                entries[number] = entries.get(number, 0) + c
    around = soils_around(mesh)
    return [(entries, 0) for entries, pairs in zip(equations, around) if any(soil.p == 0 for _, soil in pairs)]


def cheapest(mesh, pairs, sums):
    """(pair, its strength multipliers) that undo a node's column sums at the least W, or None. A soil that is
    stronger one way has other rows and is passed over."""
    found = []
    for number, soil in pairs:
        y = None if soil.kind else node_multipliers(mesh.sides, exact.radius(mesh.sides), soil, sums)
        if y is not None:
            rights = (right for _, right in exact.polygon_rows(mesh.sides, 0, soil))
            found.append((sum(a * b for a, b in zip(y, rights)), number, y))
    return min(found)[1:] if found else None


def rounded_multipliers(mesh, rows, multipliers, filling):
    """Equality multipliers rounded, then strength multipliers that undo their column sums.

    filling: how much of the limits the equality multipliers take."""
    equalities = Equalities(trace_equations(mesh, rows))
    unit = multiplier_unit(mesh, rows)
    scale = filling * largest_scale(rows, multipliers)
    unknowns = flow_rows(rows)
    wanted = {number: scale * multipliers[number] / unit for number in unknowns}
    whole = [0] * len(rows)
    for number, value in zip(unknowns, equalities.whole(unknowns, wanted, 0, equalities.unit)):
        whole[number] = unit * value
    columns = 3 * len(mesh.nodes)
    sums = exact.column_sums(rows, whole, columns)
    first = next(number for number, row in enumerate(rows) if row.kind == "strength")
    for node, pairs in enumerate(soils_around(mesh)):
        found = cheapest(mesh, pairs, sums[3 * node : 3 * node + 3])
        if found is None:
            return None
        start = first + found[0] * mesh.sides
        whole[start : start + mesh.sides] = found[1]
    return whole if multipliers_fit(rows, columns, whole) else None


def filled_multipliers(mesh, rows, multipliers, tries):
    """(filling, multipliers): the first that fit, or the best of so many tries, or None."""
    found = []
    for filling in (1 - k / 1000 for k in range(tries)) if tries else FILLINGS:
        whole = rounded_multipliers(mesh, rows, multipliers, filling)
        if whole:
            found.append((limit(rows, whole), filling, whole))
            if not tries:
                break
    return min(found)[1:] if found else None


def quick_multipliers(mesh, rows, spread, tries):
    """(multipliers, how), or None. With friction the solver's strength multipliers are kept above a spread, so that
    there is room."""
    friction = any(soil.p for soil in mesh.soils)
    for wider in (s for s in SPREADS if s > spread) if friction else (spread,):
        try:
            *_, multipliers = glpsol.solve(rows, 3 * len(mesh.nodes), spread=wider)
        except glpsol.NoOptimum:
            return None
        found = filled_multipliers(mesh, rows, multipliers, tries)
        if found:
            return found[1], f"rounded, filling {found[0]:g}, spread {wider:g}"
    return None


def useful(rows, made, load):
    """What was made, or None and why not."""
    if made[0] is None:
        return made
    if limit(rows, made[0]) > load + USELESS * abs(load):
        return None, f"the best that were found allow {float(limit(rows, made[0])):.6g}, more than twice the optimum"
    return made


def best_of(rows, found):
    """Of (multipliers, how) or None, or None."""
    return min(filter(None, found), key=lambda pair: limit(rows, pair[0]), default=None)


def near_multipliers(mesh, rows, solution, seconds, best):
    """The best of those that are there and those that the lattices have."""
    is_near = lambda pair: pair and limit(rows, pair[0]) <= solution.load + NEAR * abs(solution.load)
    if is_near(best):
        return best
    searched, why = Finder(mesh, rows, solution).search(seconds)
    best = best_of(rows, [best, searched and (searched, why)])
    if not is_near(best):
        best = best_of(rows, [best, moved_multipliers(mesh, rows, solution, seconds, best and best[0])])
    return best or (None, why)


def make_multipliers(mesh, rows, solution, spread=0.0, tries=0, seconds=0):
    """(multipliers, how they were made), or (None, why not). solution: glpsol's, with this spread; seconds: of each
    search, none with 0."""
    whole = vertex_multipliers(rows, 3 * len(mesh.nodes), solution.multipliers)
    if whole:
        return whole, "the vertex itself"
    best = quick_multipliers(mesh, rows, spread, tries)
    if not seconds:
        return best or (None, "none within the limits by quick rounding")
    return useful(rows, near_multipliers(mesh, rows, solution, seconds, best), solution.load)


def given_multipliers(mesh, rows, solution, seconds=0):
    """The same for a result from elsewhere, where no solver is asked again."""
    whole = vertex_multipliers(rows, 3 * len(mesh.nodes), solution.multipliers)
    if whole:
        return whole, "the vertex itself"
    quick = filled_multipliers(mesh, rows, solution.multipliers, 0)
    found = [quick and (quick[1], f"rounded, filling {quick[0]:g}"), Finder(mesh, rows, solution).rounded()]
    if seconds:
        found.append(moved_multipliers(mesh, rows, solution, seconds, more=0))
    best = best_of(rows, found) or (None, "rounding found none within the limits")
    return useful(rows, best, solution.load)
