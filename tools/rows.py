"""Documents 01 and 02 in exact whole numbers: the files and their refusals, the rows, the verdict and the
report line. Written from the papers' words alone, for the tools and for sheets/expected; the check has no
part in it. In here things are numbered from 0, in files and places from 1."""

import functools
import math
import re
from collections import namedtuple
from fractions import Fraction

WIDTH = 12
COLUMN = 28
REPORT = 113
DECIMALS = range(8)

# Each polygon's radius by its number of sides; its corners are all whole-number points on that circle.
RADII = {12: 5, 20: 25, 36: 65, 108: 1_105}

# What a column may hold: a range, or the name of something in the mesh.
NODE, SOIL = "node", "soil"
FORCE, TRACTION = range(-1_000, 1_001), range(-10_000, 10_001)
COORDINATE = range(1_001)
HEADER = [range(4, 101), range(1, 101), range(1, 17), range(61), RADII.keys(), range(61)]
SOIL_LINE = [range(1_001), range(1, 1_001), range(1, 1_001), range(10_001), *[FORCE] * 4, range(2), range(10_001)]
NODE_LINE = [COORDINATE] * 2
ELEMENT_LINE = [*[NODE] * 4, SOIL]
EDGE_LINE = [NODE, NODE, range(1, 4), *[TRACTION] * 4]
JUMP_LINE = [NODE] * 4
LAYER_LINE = [range(-1_000, 2_001), range(-1_000, 2_001), SOIL]
MOST_LAYERS = 32
FIRST_LAYER_LINE = 1_001

CLAIM_HEADER = [range(2), range(2), range(100_001), range(-100_000_000, 100_000_001)]
STRESS = range(-1_000_000_000, 1_000_000_001)
EQUALITY_MULTIPLIER = range(-100_000, 100_001)
STRENGTH_MULTIPLIER = range(10_001)
MOST_PAIRS = 100
# With 108 sides (document 02, N9).
MANY_SIDES, MOST_NODES_MANY, MOST_PAIRS_MANY, STRENGTH_MULTIPLIER_MANY = 108, 40, 40, range(301)

# kind 1 is stronger one way: cohesion along and cv across; kind 0 doesn't read cv.
Soil = namedtuple("Soil", "p q h cohesion dead live kind cv")
Element = namedtuple("Element", "nodes soil")
Edge = namedtuple("Edge", "start end fixed dead live")  # loads are (normal, shear)
Jump = namedtuple("Jump", "start end facing_start facing_end")
Layer = namedtuple("Layer", "bottom top soil")
Mesh = namedtuple("Mesh", "sides soils nodes elements edges jumps")
# stresses: sx, sy, t of node after node, or None; multipliers: in the order of the rows, or None.
Claim = namedtuple("Claim", "n l stresses multipliers")

# kind: balance, side, jump or strength; of: what the row belongs to; number: within equalities, or within strength
# rows, from 1; fixed: whether it asks anything; entries: column -> coefficient; live: coefficient of l, moved
# to the left; right: right side at n = 1; limits: what its multiplier may be.
Row = namedtuple("Row", "kind of number fixed entries live right limits")

# What is not told is None.
Verdict = namedtuple("Verdict", "number place kind l n w m open_rows", defaults=(None,) * 5)


class Refused(Exception):
    """A refusal: its number, its place and the kind of place."""

    def __init__(self, number, place, kind):
        super().__init__(f"{number} at {kind} {place}")
        self.number, self.place, self.kind = number, place, kind


# Files


class FileLines:
    """The lines of a file from its front; `form` is the refusal's number."""

    SPELLING = re.compile(rb" *(0|-?[1-9][0-9]*)")

    def __init__(self, data, form, first=1):
        self.data, self.form, self.line = data, form, first

    def take(self, columns):
        """The numbers of the next line."""
        piece, self.data = self.data[: WIDTH * columns + 1], self.data[WIDTH * columns + 1 :]
        parts = [piece[k : k + WIDTH] for k in range(0, WIDTH * columns, WIDTH)]
        whole = len(piece) == WIDTH * columns + 1 and piece[-1:] == b"\n"
        if not whole or not all(self.SPELLING.fullmatch(part) for part in parts):
            raise Refused(self.form, self.line, "line")
        self.line += 1
        return [int(part) for part in parts]

    def end(self):
        if self.data:
            raise Refused(self.form, self.line, "line")


class NumberLines(FileLines):
    """Numbers handed over, as a file of them in columns as wide as needed."""

    def take(self, columns):
        piece, self.data = self.data[:columns], self.data[columns:]
        if len(piece) < columns:
            raise Refused(self.form, self.line, "line")
        self.line += 1
        return list(piece)


def take_line(lines, columns, refusal, there=None):
    """The next line's numbers, held to their limits and to the nodes and soils there are."""
    numbers = lines.take(len(columns))
    line = lines.line - 1
    if any(number not in limits for number, limits in zip(numbers, columns) if not isinstance(limits, str)):
        raise Refused(refusal, line, "line")
    if any(number not in there[thing] for number, thing in zip(numbers, columns) if isinstance(thing, str)):
        raise Refused(4, line, "line")
    return numbers


def soil_of(lines, sides):
    numbers = take_line(lines, SOIL_LINE, 2)
    p, q, h = numbers[:3]
    soil = Soil(*numbers[:4], tuple(numbers[4:6]), tuple(numbers[6:8]), *numbers[8:])
    if soil.kind and sides == MANY_SIDES:
        raise Refused(2, lines.line - 1, "line")
    if p * p + q * q != h * h:
        raise Refused(3, lines.line - 1, "line")
    return soil


def layers_of(lines, there):
    """The table's layers: 1, 2 and 4 line by line."""
    layers = []
    while lines.data and len(layers) < MOST_LAYERS:
        bottom, top, soil = take_line(lines, LAYER_LINE, 2, there)
        layers.append(Layer(bottom, top, soil - 1))
    lines.end()
    return layers


def judge_layers(layers, heights):
    """46, then 45, over heights in quarters."""
    for number, layer in enumerate(layers):
        if layer.top <= layer.bottom:
            raise Refused(46, FIRST_LAYER_LINE + number, "line")
    taken = set()
    for number, layer in enumerate(layers):
        within = {height for height in heights if 4 * layer.bottom <= height < 4 * layer.top}
        if taken & within:
            raise Refused(46, FIRST_LAYER_LINE + number, "line")
        taken |= within
    for height in heights:
        if height not in taken:
            raise Refused(45, height, "height")


def filled(mesh, layers):
    """The mesh with each soil 0 replaced by its layer's, at the height of the element's four corners (document 02,
    N8); the four heights' sum is the height in quarters."""
    elements = []
    for element in mesh.elements:
        height = sum(mesh.nodes[node][1] for node in element.nodes)
        own = [layer.soil for layer in layers if 4 * layer.bottom <= height < 4 * layer.top]
        elements.append(element._replace(soil=own[0]) if element.soil < 0 else element)
    return mesh._replace(elements=elements)


def things_there(mesh):
    """The nodes and soils that a line may name."""
    return {NODE: range(1, len(mesh.nodes) + 1), SOIL: range(1, len(mesh.soils) + 1)}


def lined_mesh(lines, with_table):
    """The mesh that lines hold: 1 to 4 line by line. With a table an element's soil may be 0, here -1: the table's."""
    nodes, elements, soils, edges, sides, jumps = take_line(lines, HEADER, 2)
    if sides == MANY_SIDES and nodes > MOST_NODES_MANY:
        raise Refused(2, 1, "line")
    all_soils = [soil_of(lines, sides) for _ in range(soils)]
    all_nodes = [tuple(take_line(lines, NODE_LINE, 2)) for _ in range(nodes)]
    there = things_there(Mesh(sides, all_soils, all_nodes, [], [], []))
    there_or_0 = {**there, SOIL: range(soils + 1)} if with_table else there
    all_elements = []
    for _ in range(elements):
        *corner, soil = take_line(lines, ELEMENT_LINE, 2, there_or_0)
        all_elements.append(Element(tuple(node - 1 for node in corner), soil - 1))
    all_edges = []
    for _ in range(edges):
        start, end, fixed, *loads = take_line(lines, EDGE_LINE, 2, there)
        all_edges.append(Edge(start - 1, end - 1, fixed, tuple(loads[:2]), tuple(loads[2:])))
    all_jumps = [Jump(*(node - 1 for node in take_line(lines, JUMP_LINE, 2, there))) for _ in range(jumps)]
    lines.end()
    return Mesh(sides, all_soils, all_nodes, all_elements, all_edges, all_jumps)


def heights_of(mesh):
    """The mesh's heights in quarters, from its lowest node to its highest."""
    heights = [y for _, y in mesh.nodes]
    return range(4 * min(heights), 4 * max(heights) + 1)


def mesh_of(lines, table):
    """The mesh that lines hold, in document 01's order: 1 to 4 line by line; then the table, an empty one being
    none."""
    mesh = lined_mesh(lines, bool(table.data))
    if not table.data:
        return mesh
    layers = layers_of(table, things_there(mesh))
    judge_layers(layers, heights_of(mesh))
    return filled(mesh, layers)


def edge_line(mesh, edge):
    """The line of an edge, edges counted from 0; jumps follow the edges."""
    return 2 + len(mesh.soils) + len(mesh.nodes) + len(mesh.elements) + edge


def strength_multiplier(mesh):
    return STRENGTH_MULTIPLIER_MANY if mesh.sides == MANY_SIDES else STRENGTH_MULTIPLIER


def multiplier_groups(mesh):
    """(lines, columns, limits) of each group of a claim's multipliers."""
    return [
        (len(mesh.elements), 2, EQUALITY_MULTIPLIER),
        (len(mesh.edges), 4, EQUALITY_MULTIPLIER),
        (len(mesh.jumps), 4, EQUALITY_MULTIPLIER),
        (len(strength_pairs(mesh)), mesh.sides, strength_multiplier(mesh)),
    ]


def claim_header(lines):
    """Line 1 of a claim: 11, 12, then 13."""
    field, multipliers, n, l = take_line(lines, CLAIM_HEADER, 12)
    if not (field or multipliers) or field and n == 0 or not field and (n or l):
        raise Refused(13, 1, "line")
    return field, multipliers, n, l


def claim_of(lines, mesh):
    """The claim that lines hold: 11 and 12 line by line, 13 after line 1."""
    has_field, has_multipliers, n, l = claim_header(lines)
    stresses = multipliers = None
    if has_field:
        stresses = [stress for _ in mesh.nodes for stress in take_line(lines, [STRESS] * 3, 12)]
    if has_multipliers:
        multipliers = []
        for count, columns, limits in multiplier_groups(mesh):
            for _ in range(count):
                multipliers += take_line(lines, [limits] * columns, 12)
    lines.end()
    return Claim(n, l, stresses, multipliers)


def claim_lines(mesh, claim):
    """The numbers of a claim's lines."""
    lines = [[int(claim.stresses is not None), int(claim.multipliers is not None), claim.n, claim.l]]
    stresses = claim.stresses or []
    lines += [stresses[k : k + 3] for k in range(0, len(stresses), 3)]
    if claim.multipliers is not None:
        rest = iter(claim.multipliers)
        for count, columns, _ in multiplier_groups(mesh):
            lines += [[next(rest) for _ in range(columns)] for _ in range(count)]
    return lines


def claim_bytes(mesh, field, multipliers):
    """The length of a claim with these parts."""
    lines = [(1, len(CLAIM_HEADER))]
    lines += [(len(mesh.nodes), 3)] if field else []
    lines += [(count, columns) for count, columns, _ in multiplier_groups(mesh)] if multipliers else []
    return sum(count * (WIDTH * columns + 1) for count, columns in lines)


def text_of(lines):
    """Each number right-justified in 12 characters, each line closed by byte 10."""
    return "".join("".join(f"{number:{WIDTH}d}" for number in line) + "\n" for line in lines).encode("ascii")


# The mesh as a whole


def corners_of(element):
    """An element's corners in order. With its third and fourth node the same it is a triangle: the repeat
    makes no side (document 02, N1)."""
    return element.nodes[:3] if element.nodes[2] == element.nodes[3] else element.nodes


def sides_of(element):
    """An element's directed sides."""
    corner = corners_of(element)
    return list(zip(corner, corner[1:] + corner[:1]))


def turn(a, b, c):
    """Twice the area of a triangle: above 0 for a left turn at b."""
    return (b[0] - a[0]) * (c[1] - b[1]) - (b[1] - a[1]) * (c[0] - b[0])


def turns(mesh, element):
    at = [mesh.nodes[node] for node in corners_of(element)]
    return [turn(at[i - 1], at[i], at[(i + 1) % len(at)]) for i in range(len(at))]


def outer_sides(mesh):
    """The directed sides whose reverse is no element's."""
    directed = {side for element in mesh.elements for side in sides_of(element)}
    return {(a, b) for a, b in directed if (b, a) not in directed}


def judge_turns(mesh):
    for number, element in enumerate(mesh.elements):
        if min(turns(mesh, element)) <= 0:
            raise Refused(5, number + 1, "element")


def judge_sides(mesh):
    lower = set()
    for number, element in enumerate(mesh.elements):
        if lower.intersection(sides_of(element)):
            raise Refused(6, number + 1, "element")
        lower.update(sides_of(element))


def judge_nodes(mesh):
    used = {node for element in mesh.elements for node in element.nodes}
    for node in range(len(mesh.nodes)):
        if node not in used:
            raise Refused(7, node + 1, "node")


def parted(a, b):
    """Whether a line along one of a's sides has all of b's corners on it or to its right."""
    return any(all(turn(p, q, corner) <= 0 for corner in b) for p, q in zip(a, a[1:] + a[:1]))


def judge_overlaps(mesh):
    """47, where two elements share a point inside both. They are convex, so a line along a side of one of them
    parts them where there is none."""
    lower = []
    for number, element in enumerate(mesh.elements):
        here = [mesh.nodes[node] for node in corners_of(element)]
        if any(not parted(here, there) and not parted(there, here) for there in lower):
            raise Refused(47, number + 1, "element")
        lower.append(here)


def judge_edges(mesh):
    free = outer_sides(mesh)
    for number, edge in enumerate(mesh.edges):
        if (edge.start, edge.end) not in free:
            raise Refused(8, edge_line(mesh, number), "line")
        free.remove((edge.start, edge.end))


def judge_jumps(mesh):
    """44, unless both sides are outer ones as directed, in one place, and used by no edge or earlier jump."""
    free = outer_sides(mesh) - {(edge.start, edge.end) for edge in mesh.edges}
    for number, jump in enumerate(mesh.jumps):
        sides = {(jump.start, jump.end), (jump.facing_end, jump.facing_start)}
        here = mesh.nodes[jump.start], mesh.nodes[jump.end]
        there = mesh.nodes[jump.facing_start], mesh.nodes[jump.facing_end]
        if not sides <= free or here != there:
            raise Refused(44, edge_line(mesh, len(mesh.edges) + number), "line")
        free -= sides


def judge_pairs(mesh):
    """42, with the node that brings one pair too many."""
    pairs, most = strength_pairs(mesh), MOST_PAIRS_MANY if mesh.sides == MANY_SIDES else MOST_PAIRS
    if len(pairs) > most:
        raise Refused(42, pairs[most][0] + 1, "node")


def judge_mesh(mesh):
    """5, 6, 7, 47, 8, 44, 42, each over the whole mesh."""
    for judge in (judge_turns, judge_sides, judge_nodes, judge_overlaps, judge_edges, judge_jumps, judge_pairs):
        judge(mesh)


# Rows


def radius(sides):
    return RADII[sides]


@functools.cache
def corners(sides):
    """All corners of the polygon, counterclockwise from (r, 0): a quadrant, then turned three times."""
    r = radius(sides)
    quadrant = [(a, math.isqrt(r * r - a * a)) for a in range(r, 0, -1)]
    turned = [[(a, b) for a, b in quadrant if a * a + b * b == r * r]]
    for _ in range(3):
        turned.append([(-b, a) for a, b in turned[-1]])
    return [corner for part in turned for corner in part]


def strength_pairs(mesh):
    """(node, soil), nodes ascending, and for each node the soils of the elements around it, ascending
    (document 02, N2)."""
    return sorted({(node, element.soil) for element in mesh.elements for node in element.nodes})


def plus(entries, column, coefficient):
    entries[column] = entries.get(column, 0) + coefficient


def balance_rows(mesh):
    """Two for each element: stress divergence plus force is zero over it, doubled. A triangle has the same
    four sums, its repeated corner counted twice."""
    for number, element in enumerate(mesh.elements):
        soil = mesh.soils[element.soil]
        at = [mesh.nodes[node] for node in element.nodes]
        first, second, area = {}, {}, 0
        for i, node in enumerate(element.nodes):
            after, before = at[(i + 1) % 4], at[i - 1]
            by_y, by_x = after[1] - before[1], before[0] - after[0]
            area += at[i][0] * by_y
            plus(first, 3 * node, by_y)
            plus(first, 3 * node + 2, by_x)
            plus(second, 3 * node + 1, by_x)
            plus(second, 3 * node + 2, by_y)
        for axis, entries in enumerate((first, second)):
            of = number, axis
            yield "balance", of, True, entries, area * soil.live[axis], -area * soil.dead[axis]


def traction(step, node):
    """The normal and the shear expression at a node, for a side with this step."""
    u, w = step
    sx, sy, t = 3 * node, 3 * node + 1, 3 * node + 2
    return {sx: w * w, t: -2 * u * w, sy: u * u}, {sx: u * w, sy: -u * w, t: w * w - u * u}


def step_of(mesh, start, end):
    return tuple(b - a for a, b in zip(mesh.nodes[start], mesh.nodes[end]))


def side_rows(mesh):
    """Four for each edge: normal and shear at its first node, then at its second."""
    for number, edge in enumerate(mesh.edges):
        step = step_of(mesh, edge.start, edge.end)
        size = step[0] ** 2 + step[1] ** 2
        for end, node in enumerate((edge.start, edge.end)):
            for part, entries in enumerate(traction(step, node)):
                fixed = bool(edge.fixed & (1 << part))
                of = number, end, part
                yield "side", of, fixed, entries, -size * edge.live[part], size * edge.dead[part]


def jump_rows(mesh):
    """Four for each jump, in an edge's order: the first node's normal or shear minus the facing one's is 0. At the
    tip of a joint the two nodes are one, and the rows say nothing."""
    for number, jump in enumerate(mesh.jumps):
        step = step_of(mesh, jump.start, jump.end)
        for end, (node, facing) in enumerate(((jump.start, jump.facing_start), (jump.end, jump.facing_end))):
            for part, (near, far) in enumerate(zip(traction(step, node), traction(step, facing))):
                entries = dict(near)
                for column, coefficient in far.items():
                    plus(entries, column, -coefficient)
                yield "jump", (number, end, part), True, entries, 0, 0


def polygon_rows(sides, node, soil):
    """(entries, right side) of a node's strength rows, side by side of the polygon."""
    r, corner = radius(sides), corners(sides)
    for (a, b), (c, d) in zip(corner, corner[1:] + corner[:1]):
        across, along, cross = r * soil.h * (d - b), r * soil.h * (c - a), a * d - b * c
        entries = {
            3 * node: across + cross * soil.p,
            3 * node + 1: cross * soil.p - across,
            3 * node + 2: -2 * along,
        }
        yield entries, cross * 2 * soil.q * soil.cohesion


def plane_rows(sides, node, soil):
    """(entries, right side) of a node's rows in a soil that is stronger one way (document 02, N14): pN + qT, then
    pN - qT, plane by plane of the first half turn."""
    r, p, q = radius(sides), soil.p, soil.q
    for a, b in corners(sides)[: sides // 2]:
        right = q * (r * r * soil.cohesion + (soil.cv - soil.cohesion) * a * a)
        normal, shear = (a * a, b * b, 2 * a * b), (-a * b, a * b, a * a - b * b)
        for sign in (1, -1):
            yield {3 * node + k: p * normal[k] + sign * q * shear[k] for k in range(3)}, right


def soil_rows(sides, node, soil):
    """(entries, right side) of the rows of a pair of node and soil."""
    return (plane_rows if soil.kind else polygon_rows)(sides, node, soil)


def strength_rows(mesh):
    """As many for each pair of node and soil as the polygon has sides."""
    for node, soil in strength_pairs(mesh):
        for k, (entries, right) in enumerate(soil_rows(mesh.sides, node, mesh.soils[soil])):
            yield "strength", (node, soil, k), True, entries, 0, right


def rows_of(mesh):
    """All rows, in the order of their multipliers in a claim: equalities, then strength."""
    equalities = [*balance_rows(mesh), *side_rows(mesh), *jump_rows(mesh)]
    groups = (equalities, EQUALITY_MULTIPLIER), (strength_rows(mesh), strength_multiplier(mesh))
    return [Row(*row[:2], k + 1, *row[2:], limits) for group, limits in groups for k, row in enumerate(group)]


# Claims against rows


def spare(row, claim):
    """Right side less left side, in whole numbers: n times the true one."""
    left = sum(c * claim.stresses[k] for k, c in row.entries.items()) + row.live * claim.l
    return row.right * claim.n - left


def failing(rows, claim):
    """(refusal, row) of each row that the claim's field doesn't meet, equalities first."""
    for row in rows:
        difference = spare(row, claim) if row.fixed else 0
        if row.kind == "strength" and difference < 0:
            yield 22, row
        elif row.kind != "strength" and difference:
            yield 21, row


def column_sums(rows, multipliers, columns):
    sums = [0] * columns
    for row, y in zip(rows, multipliers):
        if y:
            for k, c in row.entries.items():
                sums[k] += y * c
    return sums


def load_sum(rows, multipliers):
    """m: the sum of the column of l."""
    return sum(row.live * y for row, y in zip(rows, multipliers))


def right_sum(rows, multipliers):
    """W: multiplier times right side."""
    return sum(row.right * y for row, y in zip(rows, multipliers))


def open_rows(rows, claim):
    """Strength rows with a multiplier above 0 and strength to spare."""
    strength = ((row, y) for row, y in zip(rows, claim.multipliers) if row.kind == "strength" and y > 0)
    return [row for row, _ in strength if spare(row, claim) > 0]


def judge_field(rows, claim):
    for refusal, row in failing(rows, claim):
        raise Refused(refusal, row.number, "row")


def judge_multipliers(rows, columns, multipliers):
    for row, y in zip(rows, multipliers):
        if y and not row.fixed:
            raise Refused(31, row.number, "row")
    for column, total in enumerate(column_sums(rows, multipliers, columns)):
        if total:
            raise Refused(32, column + 1, "column")
    if load_sum(rows, multipliers) <= 0:
        raise Refused(33, 0, "column")


# Verdict and report


def judge_claim(mesh, rows, claim):
    """The verdict on a claim whose lines have passed. On a mesh that lists a soil of kind 1, used or not, the load
    that the field carries isn't told."""
    told = {}
    if claim.stresses is not None:
        judge_field(rows, claim)
        if not any(soil.kind for soil in mesh.soils):
            told |= {"l": claim.l, "n": claim.n}
    if claim.multipliers is not None:
        judge_multipliers(rows, 3 * len(mesh.nodes), claim.multipliers)
        told |= {"w": right_sum(rows, claim.multipliers), "m": load_sum(rows, claim.multipliers)}
    if claim.stresses is not None and claim.multipliers is not None:
        told["open_rows"] = len(open_rows(rows, claim))
    return Verdict(0, 0, "none", **told)


def sizes(mesh):
    """Rows of each kind (balance, side, jump, strength; unfixed ones counted), columns, and the bytes of a claim with
    a field, with multipliers and with both (document 02, N7)."""
    counts = [count * columns for count, columns, _ in multiplier_groups(mesh)]
    claims = [claim_bytes(mesh, field, multipliers) for field, multipliers in ((1, 0), (0, 1), (1, 1))]
    return [*counts, 3 * len(mesh.nodes), *claims]


def judged_mesh(mesh_lines, table_lines):
    """The mesh of lines that pass, and its rows; Refused where they don't."""
    mesh = mesh_of(mesh_lines, table_lines)
    judge_mesh(mesh)
    return mesh, rows_of(mesh)


def mesh_sizes(mesh, table):
    """The sizes of a mesh file and a table: number, place and kind of place, then its sizes, or - where it is refused."""
    try:
        return [0, 0, "none", *sizes(judged_mesh(*mesh_files(mesh, table))[0])]
    except Refused as refusal:
        return [refusal.number, refusal.place, refusal.kind, "-"]


def refused(refusal):
    return Verdict(refusal.number, refusal.place, refusal.kind)


def verdict_of(mesh_lines, table_lines, claim_lines):
    try:
        mesh, rows = judged_mesh(mesh_lines, table_lines)
        return judge_claim(mesh, rows, claim_of(claim_lines, mesh))
    except Refused as refusal:
        return refused(refusal)


def mesh_files(mesh, table):
    return FileLines(mesh, 1), FileLines(table, 1, FIRST_LAYER_LINE)


def check_numbers(mesh, table, claim):
    """Numbers handed over: three lists, the verdict."""
    return verdict_of(NumberLines(mesh, 1), NumberLines(table, 1, FIRST_LAYER_LINE), NumberLines(claim, 11))


def check(mesh, table, claim, decimals=6, room=REPORT):
    """Three byte strings, the decimals of both loads and the room of the report buffer: the verdict, and the report
    or None."""
    if decimals not in DECIMALS:
        return Verdict(43, 0, "none"), None
    if room < REPORT:
        return Verdict(41, 0, "none"), None
    verdict = verdict_of(*mesh_files(mesh, table), FileLines(claim, 11))
    return verdict, report(verdict, decimals)


def next_claim(mesh, claims):
    """The bytes of the claim at the front of a run: its header and the mesh give its length. Where the header is
    refused, all that is left."""
    try:
        field, multipliers, _, _ = claim_header(FileLines(claims, 11))
    except Refused:
        return claims
    return claims[: claim_bytes(mesh, field, multipliers)]


def check_run(mesh_text, table, claims, room):
    """Claims written one after another (document 02, N3): all that is written, the reports and the bytes taken."""
    written, taken = b"", 0
    try:
        mesh, rows = judged_mesh(*mesh_files(mesh_text, table))
    except Refused as refusal:
        written = report(refused(refusal)) if room >= REPORT else b""
        return written, len(written) // REPORT, taken
    while room - len(written) >= REPORT and claims:
        claim = next_claim(mesh, claims)
        try:
            verdict = judge_claim(mesh, rows, claim_of(FileLines(claim, 11), mesh))
        except Refused as refusal:
            verdict = refused(refusal)
        written += report(verdict)
        if verdict.number in (11, 12, 13):
            break
        taken, claims = taken + len(claim), claims[len(claim) :]
    return written, len(written) // REPORT, taken


def decimal(load, up, decimals):
    """A load with so many decimals, rounded once, towards plus or minus infinity; no point at 0 decimals."""
    scaled = load * 10**decimals
    whole = -(-scaled // 1) if up else scaled // 1
    digits = f"{abs(whole):0{decimals + 1}d}"
    point = len(digits) - decimals
    return ("-" if whole < 0 else "") + digits[:point] + ("." if decimals else "") + digits[point:]


def report(verdict, decimals=6):
    """The report line, with its byte 10."""
    parts = [str(verdict.number), str(verdict.place), "none", "none"]
    if verdict.number == 0:
        parts[1] = "none" if verdict.open_rows is None else str(verdict.open_rows)
        if verdict.n is not None:
            parts[2] = decimal(Fraction(verdict.l, verdict.n), False, decimals)
        if verdict.m is not None:
            parts[3] = decimal(Fraction(verdict.w, verdict.m), True, decimals)
    return "".join(f"{part:>{COLUMN}}" for part in parts).encode("ascii") + b"\n"


def told(written):
    """A report without its byte 10; - where none is written."""
    return "-" if written is None else written.decode("ascii").rstrip("\n")


def read(path):
    """The bytes of a file; one that can't be opened counts as empty."""
    try:
        with open(path, "rb") as file:
            return file.read()
    except OSError:
        return b""
