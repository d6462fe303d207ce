"""A field in whole numbers, near the optimum of a mesh's linear program.

The equality rows hold exactly or not at all, so rounding must not disturb any. Three ways:
- the optimum itself, where its fractions are short;
- the quick one: strength tightened by one in ten thousand, free unknowns rounded, dependent ones following;
- the near one: stresses, l and n are unknowns of the equality rows, which are homogeneous in them, so whole solutions
  form a lattice. It rounds a field in the middle of those near the optimum (central_path.py), in a basis that is short
  as the room of the strength rows there measures it; where that gives none within 0.1 %, an integer search looks for
  one (field_search.py)."""

import math

import glpsol
import rows as exact
from central_path import CentralPath
from field_search import searched_field
from lattice import Lattice, Measure, kernel
from whole_numbers import Equalities, common_denominator

LARGEST_N = exact.CLAIM_HEADER[2][-1]
LARGEST_LOAD = exact.CLAIM_HEADER[3][-1]
LARGEST_STRESS = exact.STRESS[-1]
# Margins that the quick way tries, as fractions of the right side.
MARGINS = (1e-4, 3e-4, 1e-3, 3e-3, 1e-2, 3e-2)
# Of the near way, gaps as parts of the load: the first, the smallest, and by how much the next one differs.
FIRST_GAP, SMALLEST_GAP, STEP = 0.3, 1e-9, 1.3
NO_GAP = 100  # a gap so wide that the load counts for little
MOVES = 3  # towards the first gap that is searched
ERRORS = 1.5  # rounding errors there, as a part of the room
TRIALS = 120  # roundings of one target
PARTS = (1e-3, 3e-3, 1e-2, 3e-2, 0.1)  # how far from the optimum integer searches look, as parts of it
FINE = 2.0**22  # the largest factor of a measure
N_MOVES = 0.1  # how far rounding may move n, as a part of it
USELESS = 0.1  # a field farther than this from the wanted one, relative to its load, is none


def field_fits(rows, field):
    """The field is within the limits and meets every row."""
    n, l, stresses = field
    if not 1 <= n <= LARGEST_N or abs(l) > LARGEST_LOAD:
        return False
    if any(abs(stress) > LARGEST_STRESS for stress in stresses):
        return False
    return not any(exact.failing(rows, exact.Claim(n, l, stresses, None)))


def asked_equalities(rows):
    return [row for row in rows if row.kind != "strength" and row.fixed]


def vertex_field(rows, stresses, load):
    n = common_denominator([load, *stresses], LARGEST_N)
    if n is None:
        return None
    field = n, round(n * load), [round(n * stress) for stress in stresses]
    return field if field_fits(rows, field) else None


# The quick way


def followed_field(rows, columns, stresses, load):
    """The field with its free unknowns rounded; the last unknown is the load."""
    equalities = Equalities([({**row.entries, columns: row.live}, row.right) for row in asked_equalities(rows)])
    sizes = [abs(value) for value in stresses] + [10 * abs(load), 1]
    n = min(LARGEST_N, int(LARGEST_STRESS / (2 * max(sizes))))
    n -= n % equalities.right_unit
    if n == 0:
        return None
    wanted = [n * value for value in [*stresses, load]]
    whole = equalities.whole(range(columns + 1), wanted, n, equalities.unit)
    field = n, whole[-1], whole[:-1]
    return field if field_fits(rows, field) else None


def quick_field(rows, columns, margin):
    """(field, how), or None."""
    for more in MARGINS:
        try:
            stresses, load, _ = glpsol.solve(rows, columns, margin + more)
        except glpsol.NoOptimum:
            return None
        field = followed_field(rows, columns, stresses, load)
        if field:
            return field, f"rounded, strength {margin + more:g} tighter"
    return None


# The near way


def equations_of(rows, columns):
    """Rows as homogeneous equations; unknown `columns` is l, the next is n."""
    equations = []
    for row in rows:
        entries = {k: c for k, c in row.entries.items() if c}
        if row.live:
            entries[columns] = row.live
        if row.right:
            entries[columns + 1] = -row.right
        if entries:
            divisor = math.gcd(*entries.values())
            equations.append({k: c // divisor for k, c in entries.items()})

    def along_the_mesh(entries):
        """Rows of one node first; then so that few unknowns are open at a time."""
        stresses = [k for k in entries if k < columns]
        return len(stresses) > 3, max(stresses, default=0)

    return sorted(equations, key=along_the_mesh)


def root(curvature):
    """The upper triangle R of a node's second derivatives, Rᵀ·R, by rows."""
    h00, h01, h02, h11, h12, h22 = curvature
    a = math.sqrt(h00)
    b, c = h01 / a, h02 / a
    d = math.sqrt(max(h11 - b * b, 1e-12 * h11))
    e = (h12 - b * c) / d
    return (a, b, c), (0.0, d, e), (0.0, 0.0, math.sqrt(max(h22 - c * c - e * e, 1e-12 * h22)))


def measure_of(path, field, gap):
    """(measure, its unit): what a whole solution's distance from the real field costs. A stress costs by the room that
    strength rows have, the load by its gap to the optimum, all relative to the field, so that n itself may move. Where
    the length is below the unit times n, every strength row still has room."""
    roots = [root(node.slopes(here, 0.0)[1]) for node, here in zip(path.nodes, path.by_node(field.stresses))]
    unit = FINE / max(c for rows in roots for row in rows for c in map(abs, row))
    columns, drift = {}, {"n": max(1, round(unit / N_MOVES))}
    for node, (rows, here) in enumerate(zip(roots, path.by_node(field.stresses))):
        for i, row in enumerate(rows):
            whole = [round(unit * c) for c in row]
            whole[i] = whole[i] or 1
            for j, c in enumerate(whole):
                if c:
                    columns.setdefault(3 * node + j, {})[node, i] = c
            drift[node, i] = -round(sum(c * stress for c, stress in zip(whole, here)))
    columns[path.columns] = {"l": max(1, round(unit / gap))}
    drift["l"] = -round(columns[path.columns]["l"] * field.load)
    columns[path.columns + 1] = {place: c for place, c in drift.items() if c}
    return Measure(columns), unit


def better(field, best):
    return best is None or field[1] * best[0] > best[1] * field[0]


class FieldRounding:
    """Roundings of fields of one mesh. tight: numbers of strength rows without room in any field (a free surface
    without cohesion); they are kept as equalities."""

    def __init__(self, mesh, rows, solution, margin=0.0, tight=()):
        self.rows, self.columns = rows, 3 * len(mesh.nodes)
        strength = [(number, row) for number, row in enumerate(rows) if row.kind == "strength" and number not in tight]
        equal = asked_equalities(rows) + [rows[number] for number in sorted(tight)]
        self.equations = equations_of(equal, self.columns)
        unknowns = range(self.columns + 2)
        self.vectors = kernel(unknowns, self.equations, Measure({k: {k: 1} for k in unknowns}))
        box = max(LARGEST_STRESS / LARGEST_N, 2 * max(map(abs, solution.stresses)))
        self.path = CentralPath(self.columns, strength, self.vectors, box, margin)
        self.optimum, self.size = solution.load, max(abs(solution.load), 1e-9)
        self.field, self.tight = self.path.inside(solution, self.weight(NO_GAP))

    def weight(self, gap):
        return self.path.count / (gap * self.size)

    def move(self, gap):
        """Goes along the path, so far that the load can't be below the optimum by more than this part of it, and makes
        the basis short there."""
        self.field = self.path.centred(self.field, self.weight(gap))
        away = max(self.optimum - self.field.load, 1e-9 * self.size)
        measure, self.unit = measure_of(self.path, self.field, away)
        self.lattice = Lattice(self.vectors, measure)
        self.vectors = self.lattice.vectors
        sizes = [LARGEST_STRESS / max(map(abs, self.field.stresses)), LARGEST_LOAD / max(abs(self.field.load), 1e-9)]
        self.top = 0.999 * min(LARGEST_N, *sizes)

    def move_near(self, part):
        """Goes to where the load is below the optimum by this part of it, or by less."""
        gap = 1.0
        self.move(gap)
        while self.optimum - self.field.load > part * self.size and gap > SMALLEST_GAP:
            gap /= 2
            self.move(gap)

    def error(self):
        """What rounding moves a field by, where strength rows are met below 1 and a little above it."""
        return math.sqrt(sum(self.lattice.squares) / 12) / (self.unit * self.top)

    def nearest(self, wanted):
        """(n, l, stresses): a whole solution of the equality rows near these values of the unknowns."""
        whole = self.lattice.nearest(wanted)
        *stresses, l, n = (whole.get(k, 0) for k in range(self.columns + 2))
        return n, l, stresses

    def fits(self, field, best):
        """The field is better than the best one and fits."""
        return field[0] > 0 and better(field, best) and field_fits(self.rows, field)

    def search(self):
        """The best of the roundings at different n that fit, or None."""
        best, values = None, [*self.field.stresses, self.field.load, 1.0]
        for trial in range(TRIALS):
            n = self.top * (0.99 - 0.3 * trial / TRIALS)
            field = self.nearest({k: n * value for k, value in enumerate(values)})
            if self.fits(field, best):
                best = field
        return best

    def first_gap(self):
        """Where rounding errors take up as much of the room as roundings can."""
        gap = FIRST_GAP
        for _ in range(MOVES):
            self.move(gap)
            gap = min(1.0, max(SMALLEST_GAP, gap * self.error() / ERRORS))
        return gap

    def best_rounding(self):
        """From there nearer to the optimum for as long as fields fit, or farther from it until one does; or None."""
        gap, best, nearer = self.first_gap(), None, None
        while SMALLEST_GAP <= gap <= 1:
            self.move(gap)
            field = self.search()
            if field and better(field, best):
                best = field
            nearer = bool(field) if nearer is None else nearer
            if nearer != bool(field):
                break
            gap = gap / STEP if nearer else gap * STEP
        return best

    def searched(self, best, seconds):
        """(field, how): where the best one is farther than 0.1 % from the optimum, by integer searches for fields
        farther and farther, as far as the best one."""
        none, reached = "", best and best[1] >= (self.optimum - PARTS[0] * self.size) * best[0]
        for part in () if reached else PARTS:
            load = self.optimum - part * self.size
            reached = best and best[1] >= load * best[0]
            load = best[1] / best[0] if reached else load
            self.move_near((self.optimum - load) / (2 * self.size))
            field, ended = searched_field(self, self.equations, load, seconds)
            if field and self.fits(field, best):
                return field, "by an integer search" + none
            if reached:
                break
            none = f", which finds none within {100 * part:g} %" if ended and not field else none
        return best, "rounded, beside an integer search" + none if none else "rounded"


def rounding_of(mesh, rows, solution, margin):
    """A rounding from a field with room in each strength row that can have room, or None where none is found."""
    rounding = FieldRounding(mesh, rows, solution, margin)
    if rounding.tight:
        rounding = FieldRounding(mesh, rows, solution, margin, rounding.tight)
    return rounding if rounding.field else None


def near_field(mesh, rows, solution, margin=0.0, seconds=0):
    """(field, how), or (None, why not)."""
    rounding = rounding_of(mesh, rows, solution, margin)
    if rounding is None:
        return None, "there is no field with room in the strength rows"
    best = rounding.best_rounding()
    return rounding.searched(best, seconds) if seconds else (best, "rounded")


def useful(field, how, load):
    """(field, how), or (None, why not)."""
    if field is None:
        return None, f"no whole field within the limits was found near the optimum: {how}"
    n, l, _ = field
    if abs(l / n - load) > USELESS * abs(load):
        return None, f"the best that was found carries {l / n:.6g}, where {load:.6g} was wanted ({how})"
    return field, how


def make_field(mesh, rows, solution, margin=0.0, seconds=0):
    """((n, l, stresses), how it was made), or (None, why not). solution: glpsol's, with strength rows tightened by
    `margin`, a fraction of their right side; seconds: of each search, with 0 there is only the quick way."""
    field = vertex_field(rows, *solution[:2])
    if field:
        return field, "the vertex itself"
    near = near_field(mesh, rows, solution, margin, seconds) if seconds else (None, "quick rounding")
    if near[0] is None:
        quick = quick_field(rows, 3 * len(mesh.nodes), margin)
        made = quick and useful(*quick, solution.load)
        if made and made[0]:
            return made
    return useful(*near, solution.load)


def given_field(mesh, rows, solution):
    """The same for a result from elsewhere, where no solver is asked again."""
    field = vertex_field(rows, *solution[:2])
    if field:
        return field, "the vertex itself"
    return useful(*near_field(mesh, rows, solution), solution.load)
