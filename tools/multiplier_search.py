"""Whole multipliers near the optimum of a mesh's linear program, for any mesh.

The columns are homogeneous equations between the multipliers, so whole multipliers form a lattice. The optimum is
rounded in a short basis of it; then glpsol's integer search runs over the basis' factors instead of the multipliers
themselves: every factor is free, no equation is left, and each bound is a row.

Unknowns are the equality multipliers and, of the pairs of node and soil that deform:
- without friction the vector V = Σ y·S over the polygon's steps S = (c-a, d-b): the strength multipliers y enter the
  node's columns only through it, sx by r·h·Vy, sy by -r·h·Vy, t by -2·r·h·Vx, and y follow from V;
- with friction, or where the soil is stronger one way, the multipliers of some sides, which must not be below 0:
  targets keep them above what rounding moves them by."""

import math
from fractions import Fraction

import glpsol
import rows as exact
from lattice import Lattice, Measure, add_multiple, kernel
from motion_program import MotionProgram, mixed_program, moves_load
from polygon_sides import side_table, step_basis, vector_multipliers

SMALLEST = 0.02  # least m of a search, as a part of what the solver's optimum scales up to
USED = 1e-7  # a multiplier above this part of the largest is in use
IN_USE = 1e-5  # the same in a search's solution
ROUNDINGS = [1 - k / 100 for k in range(40)]  # how much of the limits roundings take
FACTORS = (0, 0.7, 1.0, 1.4, 2.0, 3.0, 4.0, 6.0)  # what multipliers of sides keep above 0, in rounding errors
# How many sides of a pair are unknowns, and whether pairs around those that deform have some too.
CHOICES = ((4, False), (6, False), (9, False), (4, True), (6, True))
MANY = 150  # a lattice of more vectors than this takes long: of these only the first is tried
LARGEST = 50  # the largest m, as the same part
LEAST = 0.2  # least m of a search that rounds short vectors, as the same part
MARGINS = (2.0, 4.0)  # what it keeps from the limits, in rounding errors
IMPROVEMENTS = 3  # searches for something better than the best
RULED_OUT = "none was found within the limits, and an integer search over a few sides of each pair says there is none"
NEAR = 1e-4  # a limit so near to the optimum, relative to it, is good enough
CHEAPLY = ["--pcost", "--bestp"]
QUICKLY = ["--drtom", "--bestp", "--fpump"]


def limit(rows, multipliers):
    """W/m."""
    return Fraction(exact.right_sum(rows, multipliers), exact.load_sum(rows, multipliers))


def multipliers_fit(rows, columns, multipliers):
    """The multipliers are within the limits, every column sum is 0, and m is above 0."""
    if any(y not in row.limits for row, y in zip(rows, multipliers)):
        return False
    try:
        exact.judge_multipliers(rows, columns, multipliers)
    except exact.Refused:
        return False
    return True


def largest_scale(rows, multipliers):
    """The largest factor that keeps every multiplier within its limit."""
    scale = 10**9
    for row, y in zip(rows, multipliers):
        if abs(y) > 1e-12:
            scale = min(scale, row.limits[-1] / abs(y))
    return scale


def divided(equation):
    divisor = math.gcd(*equation.values())
    return {k: c // divisor for k, c in equation.items()}


class Motions:
    """The lattice of multipliers, its roundings, and the integer program over it.

    Unknowns are row numbers and, from len(rows) on, coordinates of the V of the pairs in `free`, two numbers a pair.
    sided: the strength rows that are unknowns. All other strength multipliers are 0."""

    def __init__(self, mesh, rows, multipliers, free, sided):
        self.mesh, self.rows, self.columns = mesh, rows, 3 * len(mesh.nodes)
        self.pairs = [(node, mesh.soils[soil]) for node, soil in exact.strength_pairs(mesh)]
        self.first = len(rows) - len(self.pairs) * mesh.sides
        self.free, self.sided, self.basis = sorted(free), sided, step_basis(mesh.sides)
        self.price = {pair: 2 * self.pairs[pair][1].q * self.pairs[pair][1].cohesion for pair in self.free}
        self.equations = [{} for _ in range(self.columns)]
        self.image = {}
        equality = [number for number, row in enumerate(rows) if row.kind != "strength" and row.fixed]
        for number in equality:
            self.add_row(number, 1)
        for pair in self.free:
            self.add_vector(pair)
        largest = max(abs(multipliers[number]) for number in equality)
        weight = max(1, round(largest / (max(multipliers[self.first :]) or largest)))
        for number in sorted(sided):
            self.add_row(number, weight)
        measure = Measure(self.image)
        self.lattice = Lattice(kernel(list(self.image), self.node_equations(), measure), measure)
        self.moves = [self.effect(vector) for vector in self.lattice.vectors]

    def add_row(self, number, weight):
        self.image[number] = {number: weight}
        for k, c in self.rows[number].entries.items():
            if c:
                self.equations[k][number] = c

    def add_vector(self, pair):
        (node, soil), r = self.pairs[pair], exact.radius(self.mesh.sides)
        # An error of V costs by cohesion.
        weight = max(4, round(32 * self.price[pair] / max(*self.price.values(), 1)))
        for i, (vx, vy) in enumerate(self.basis):
            name = self.name(pair, i)
            for k, c in zip(range(3 * node, 3 * node + 3), (r * soil.h * vy, -r * soil.h * vy, -2 * r * soil.h * vx)):
                if c:
                    self.equations[k][name] = c
            image = {(pair, 0): weight * r * vx, (pair, 1): weight * r * vy}
            self.image[name] = {place: c for place, c in image.items() if c}

    def name(self, pair, place):
        return len(self.rows) + 2 * pair + place

    def node_equations(self):
        """The columns, those of sx and sy as their sum and one of them, with smaller numbers."""
        for node in range(len(self.mesh.nodes)):
            sx, sy, t = self.equations[3 * node : 3 * node + 3]
            total = dict(sx)
            add_multiple(total, sy, 1)
            yield from (divided(equation) for equation in (total, t, sx) if equation)

    def effect(self, vector):
        """(W of the rows that are unknowns, m, pair -> V)."""
        w = m = 0
        vectors = {}
        for k, c in vector.items():
            if k < len(self.rows):
                w += self.rows[k].right * c
                m += self.rows[k].live * c
            else:
                pair, i = divmod(k - len(self.rows), 2)
                vectors[pair] = tuple(a + c * b for a, b in zip(vectors.get(pair, (0, 0)), self.basis[i]))
        return w, m, vectors

    def target(self, multipliers):
        """The solver's multipliers as real values of the unknowns."""
        wanted = {k: multipliers[k] for k in self.image if k < len(self.rows)}
        (ax, ay), (bx, by) = self.basis
        table = side_table(self.mesh.sides)
        for pair in self.free:
            begin = self.first + pair * self.mesh.sides
            vx, vy = (sum(multipliers[begin + k] * step[i] for k, (step, _) in enumerate(table)) for i in (0, 1))
            wanted[self.name(pair, 0)] = (vx * by - vy * bx) / (ax * by - ay * bx)
            wanted[self.name(pair, 1)] = (ax * vy - ay * vx) / (ax * by - ay * bx)
        return wanted

    def wanted(self, multipliers, scale):
        return {k: scale * c for k, c in self.target(multipliers).items()}

    def length(self, wanted):
        """Of real values of the unknowns."""
        image = {}
        for k, c in wanted.items():
            for place, factor in self.image[k].items():
                image[place] = image.get(place, 0.0) + c * factor
        return math.hypot(*image.values())

    def nearest(self, target, scale):
        return self.lattice.nearest({k: scale * c for k, c in target.items()})

    def rounded(self, multipliers):
        """(claim's multipliers, lattice vector): the best of the roundings that are one, or None."""
        target, scale, found = self.target(multipliers), largest_scale(self.rows, multipliers), []
        for filling in ROUNDINGS:
            vector = self.nearest(target, filling * scale)
            whole = self.finish(vector)
            if whole:
                found.append((whole, vector))
        return min(found, key=lambda pair: limit(self.rows, pair[0]), default=None)

    def errors(self, multipliers, scale):
        """What rounding moves the multiplier of each row in `sided` by, root mean square over some scales."""
        target, totals = self.target(multipliers), dict.fromkeys(self.sided, 0.0)
        scales = [scale * filling for filling in ROUNDINGS[:12]]
        for size in scales:
            vector = self.nearest(target, size)
            for number in totals:
                totals[number] += (vector.get(number, 0) - size * multipliers[number]) ** 2
        return {number: math.sqrt(total / len(scales)) for number, total in totals.items()}

    def finish(self, vector):
        """A claim's multipliers of a lattice vector, or None."""
        result = [vector.get(k, 0) for k in range(len(self.rows))]
        _, _, vectors = self.effect(vector)
        for pair, v in vectors.items():
            y = vector_multipliers(self.mesh.sides, v)
            if y is None:
                return None
            begin = self.first + pair * self.mesh.sides
            result[begin : begin + self.mesh.sides] = y
        return result if multipliers_fit(self.rows, self.columns, result) else None

    # Searches

    def search(self, start, ratio, scale, seconds, options):
        """(claim's multipliers, lattice vector) with W - ratio·m as low as is found in time, or None. m isn't tiny."""
        found, _ = MotionProgram(self, start).solve(ratio, SMALLEST * scale, LARGEST * scale, seconds, options)
        whole = found and self.finish(found[0])
        return whole and (whole, found[0])

    def real(self, multipliers, ratio, scale, seconds):
        """Multipliers whose short vectors have real multiples, as unknowns of the lattice, or None; and whether the
        search for them came to its end."""
        program = mixed_program(self, self.wanted(multipliers, scale), 0.0)
        found, ended = program.solve(ratio, LEAST * scale, LARGEST * scale, seconds)
        if found:
            add_multiple(found[1], found[0], 1)
        return found and found[1], ended

    def mixed(self, wanted, ratio, scale, seconds):
        """The same as `search` from nothing, with the short vectors rounded."""
        for margin in MARGINS:
            program = mixed_program(self, wanted, margin)
            found, _ = program.solve(ratio, LEAST * scale, LARGEST * scale, seconds)
            vector = found and program.rounded(*found)
            whole = vector and self.finish(vector)
            if whole:
                return whole, vector
        return None


def neighbourhood(mesh, nodes):
    """The nodes and all that share an element with them."""
    result = set(nodes)
    for element in mesh.elements:
        if set(nodes).intersection(element.nodes):
            result.update(element.nodes)
    return result


class Finder:
    """The best whole multipliers of one mesh so far, and the ways to better ones."""

    def __init__(self, mesh, rows, solution):
        self.mesh, self.rows, self.solution = mesh, rows, solution
        self.columns, self.multipliers = 3 * len(mesh.nodes), solution.multipliers
        self.pairs = exact.strength_pairs(mesh)
        self.first = len(rows) - len(self.pairs) * mesh.sides
        self.scale = largest_scale(rows, self.multipliers)
        self.least = USED * max(self.multipliers[self.first :])
        self.used = {pair for pair in range(len(self.pairs)) if self.used_sides(pair)}
        nodes = neighbourhood(mesh, {self.pairs[pair][0] for pair in self.used})
        self.around = {pair for pair, (node, _) in enumerate(self.pairs) if node in nodes}
        self.free = {pair for pair in self.around if self.is_free(self.pairs[pair][1])}
        self.best = None

    def is_free(self, soil):
        return self.mesh.soils[soil].p == 0 and not self.mesh.soils[soil].kind

    def used_sides(self, pair):
        begin = self.first + pair * self.mesh.sides
        return [k for k in range(begin, begin + self.mesh.sides) if self.multipliers[k] > self.least]

    def sides_by_room(self, pair):
        """The rows of a pair, those that the solver's field leaves the least room in first."""
        begin = self.first + pair * self.mesh.sides

        def room(number):
            row = self.rows[number]
            left = sum(c * self.solution.stresses[k] for k, c in row.entries.items())
            return (row.right - left) / (math.hypot(*row.entries.values()) or 1)

        return sorted(range(begin, begin + self.mesh.sides), key=room)

    def sided(self, count, wide):
        """The rows of `count` sides, or of those in use, of each pair that deforms and isn't free of friction; wide:
        and of each pair around them."""
        sided = set()
        for pair in (self.around if wide else self.used) - self.free:
            used = self.used_sides(pair)
            sided.update(used + self.sides_by_room(pair)[: max(0, count - len(used))])
        return sided

    def motions(self):
        """(lattice, sides of a pair) of each choice that is worth a try."""
        equality, tried = sum(row.fixed for row in self.rows[: self.first]), []
        for choice in CHOICES if self.around - self.free else CHOICES[:1]:
            sided = self.sided(*choice)
            if sided in tried:
                continue
            tried.append(sided)
            if choice == CHOICES[0] or equality + 2 * len(self.free) + len(sided) - self.columns <= MANY:
                motions = Motions(self.mesh, self.rows, self.multipliers, self.free, sided)
                if moves_load(motions, motions.wanted(self.multipliers, self.scale)):
                    yield motions, choice[0]

    def keep(self, found, how):
        """Keeps what was found if it is the best; says whether it is."""
        better = found and (self.best is None or limit(self.rows, found[0]) < limit(self.rows, self.best[0]))
        if better:
            self.best = found[0], how
        return better

    def rounded(self):
        """(multipliers, how) by rounding the solver's own, or None."""
        for motions, *_ in self.motions():
            self.keep(motions.rounded(self.multipliers), "rounded in the lattice")
        return self.best

    def round_with_room(self, motions, count):
        """The best rounding of targets that keep multipliers of sides above what rounding moves them by. Rows of pairs
        that don't deform are left out: their multipliers are 0."""
        errors, best = motions.errors(self.multipliers, self.scale), None
        asked = lambda k: k < self.first or k in motions.sided or (k - self.first) // self.mesh.sides in self.free
        inner = [row._replace(fixed=row.fixed and asked(k)) for k, row in enumerate(self.rows)]
        for factor in FACTORS if errors else (0,):
            spreads = {number: factor * error / self.scale for number, error in errors.items()}
            try:
                multipliers = glpsol.solve(inner, self.columns, spreads=spreads).multipliers
            except glpsol.NoOptimum:
                break
            found = motions.rounded(multipliers)
            if found and (best is None or limit(self.rows, found[0]) < limit(self.rows, best[0])):
                best = found
            elif best:
                break
        how = f"rounded in the lattice, {count} sides" if errors else "rounded in the lattice"
        self.keep(best, how)
        return best

    def beside(self, real):
        """The strength rows in use, and those of the sides next to them."""
        sided, sides = set(), self.mesh.sides
        strength = {k: y for k, y in real.items() if self.first <= k < len(self.rows)}
        least = IN_USE * max(strength.values(), default=0.0)
        for k in (k for k, y in strength.items() if y > least):
            begin, side = k - (k - self.first) % sides, (k - self.first) % sides
            sided.update(begin + (side + more) % sides for more in (-1, 0, 1))
        return sided

    def search_beside(self, real, seconds):
        """From multipliers with real multiples: (lattice of the sides in use and those beside them, what was found)."""
        motions = Motions(self.mesh, self.rows, self.multipliers, self.free, self.beside(real))
        wanted = {k: real.get(k, 0.0) for k in motions.image}
        found = motions.mixed(wanted, self.solution.load, self.scale, seconds)
        self.keep(found, "whole search of long vectors")
        return motions, found

    def improve(self, motions, found, seconds):
        """Searches for lower W/m, from what was found or else from the nearest whole solution."""
        load = self.solution.load
        if found is None:
            start = motions.nearest(motions.target(self.multipliers), 0.9 * self.scale)
            for options in (CHEAPLY, QUICKLY):
                found = found or motions.search(start, load, self.scale, seconds, options)
            self.keep(found, "whole search")
        for _ in range(IMPROVEMENTS if found else 0):
            ratio = float(limit(self.rows, found[0]))
            found = motions.search(found[1], ratio, self.scale, seconds, CHEAPLY)
            if not self.keep(found, "whole search"):
                break

    def search(self, seconds):
        """(multipliers, how they were found), or (None, why not)."""
        tried, none = [], True
        for motions, count in self.motions():
            real, ended = motions.real(self.multipliers, self.solution.load, self.scale, seconds)
            none = none and ended and not real
            if ended and not real:
                continue
            tried.append((motions, self.round_with_room(motions, count)))
            if real and motions.sided:
                tried.append(self.search_beside(real, seconds))
            if self.best and limit(self.rows, self.best[0]) <= self.solution.load + NEAR * abs(self.solution.load):
                return self.best
        ranked = sorted(tried, key=lambda pair: limit(self.rows, pair[1][0]) if pair[1] else math.inf)
        for motions, found in ranked[:1] if self.best else ranked:
            self.improve(motions, found, seconds)
            if self.best:
                break
        return self.best or (None, RULED_OUT if none else "neither rounding nor a search found any within the limits")
