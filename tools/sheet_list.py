"""The sheets of this repository: meshes by family, and how each claim is to be made."""

from collections import namedtuple

# how: what claim_from_solver is asked for (part, margin, spread, tries); claim: None, or the lines themselves;
# line: None, or the report's four columns; table: the lines of the borehole table.
Sheet = namedtuple("Sheet", "name mesh how claim line table", defaults=((), None, None, ()))

# Claims one after another: each a part and a margin for the solver, or the lines themselves; the report buffer
# has `room` bytes, and the last claim ends `short` bytes too early.
Run = namedtuple("Run", "name mesh claims room short", defaults=(0,))

FREE = (3, 0, 0, 0, 0)
SMOOTH = (2, 0, 0, 0, 0)


def clay(cohesion, dead=(0, 0), live=(0, 0), bedded=(0, 0)):
    return sand(0, 1, 1, cohesion, dead, live, bedded)


def sand(p, q, h, cohesion, dead=(0, 0), live=(0, 0), bedded=(0, 0)):
    """bedded: kind and cv."""
    return [p, q, h, cohesion, *dead, *live, *bedded]


def outline(i, j, size=1):
    """The corners of a grid cell, or of a square of cells, counterclockwise."""
    return [(i, j), (i + size, j), (i + size, j + size), (i, j + size)]


def polygon_mesh(polygons, at, edge_of, soils, sides):
    """A mesh of polygons, each its points counterclockwise and a soil; three points make a triangle, which
    repeats its third node. `at` places a point by its first two numbers; points that differ in a third lie on
    each other, and where two outer sides do, stress may jump. `edge_of` gives an outer side from point a to point
    b its fixing and loads, or None."""
    points = sorted({point for corner, _ in polygons for point in corner}, key=lambda p: (p[1], p[0], *p[2:]))
    number = {point: k + 1 for k, point in enumerate(points)}
    elements, directed = [], []
    for corner, soil in polygons:
        elements.append([number[point] for point in (*corner, corner[-1])[:4]] + [soil])
        directed += zip(corner, corner[1:] + corner[:1])
    outer = [(a, b) for a, b in directed if (b, a) not in set(directed)]
    loads = [(a, b, edge_of(a, b)) for a, b in outer]
    edges = [[number[a], number[b], *load] for a, b, load in loads if load]
    by_place = {(a[:2], b[:2]): (a, b) for a, b in outer}
    joints = [(side, by_place[b[:2], a[:2]]) for (a, b), side in by_place.items() if (b[:2], a[:2]) in by_place]
    jumps = [[number[a], number[b], number[d], number[c]] for (a, b), (c, d) in joints if (a, b) < (d, c)]
    header = [len(points), len(elements), len(soils), len(edges), sides, len(jumps)]
    return [header, *soils, *([*at(*point[:2])] for point in points), *elements, *edges, *jumps]


def mesh_lines(cells, at, soil_of, edge_of, soils, sides):
    """A mesh of grid cells (i, j): `soil_of` names the soil of a cell."""
    return polygon_mesh([(outline(*cell), soil_of(*cell[:2])) for cell in cells], at, edge_of, soils, sides)


def block_cells(columns, rows):
    return [(i, j) for j in range(rows) for i in range(columns)]


def scaled(size, height=None):
    return lambda i, j: (size * i, (height or size) * j)


def one_soil(_i, _j):
    return 1


def block(columns, rows, size, soils, sides, confining=0, soil_of=one_soil):
    """A block between smooth plates: foot and left side slide, the right side is confined, and
    the top is loaded. Its load is known: 2c + s without friction, Kp·s + 2c·sqrt(Kp) with it."""

    def edge(a, b):
        if a[1] == b[1] == rows:
            return 3, 0, 0, -1, 0
        if a[0] == b[0] == columns:
            return 3, -confining, 0, 0, 0
        return SMOOTH

    return mesh_lines(block_cells(columns, rows), scaled(size), soil_of, edge, soils, sides)


def footing(columns, rows, size, width, soils, sides, soil_of=one_soil, surcharge=0):
    """Half of a smooth strip footing: `width` cells are loaded, the cell beside them has no edge
    line, since one node can't carry both loads, and the left side is the line of symmetry."""

    def edge(a, b):
        if a[1] == b[1] == rows:
            if max(a[0], b[0]) <= width:
                return 3, 0, 0, -1, 0
            return None if min(a[0], b[0]) <= width else (3, -surcharge, 0, 0, 0)
        return SMOOTH if a[0] == b[0] == 0 else None

    return mesh_lines(block_cells(columns, rows), scaled(size), soil_of, edge, soils, sides)


def cut(columns, rows, size, column, row, soils, sides, soil_of=one_soil, surcharge=0):
    """A vertical cut: the ground right of `column` and above `row` is gone."""
    cells = [(i, j) for i, j in block_cells(columns, rows) if i < column or j < row]

    def edge(a, b):
        if a[1] == b[1] == rows:
            return 3, -surcharge, 0, 0, 0
        wall = a[0] == b[0] == column and min(a[1], b[1]) >= row
        floor = a[1] == b[1] == row and min(a[0], b[0]) >= column
        return FREE if wall or floor else None

    return mesh_lines(cells, scaled(size), soil_of, edge, soils, sides)


def slope(columns, rows, size, run, soils, sides, fixed=3, soil_of=one_soil):
    """A bank on a rigid floor, its columns leaning so that its right face steps `run` to the left
    in each layer: top and face are free, floor and left side may carry anything."""

    def at(i, j):
        return size * i + run * (rows - j), size * j

    def edge(a, b):
        if a[1] == b[1] == rows or a[0] == b[0] == columns:
            return fixed, 0, 0, 0, 0
        return None

    return mesh_lines(block_cells(columns, rows), at, soil_of, edge, soils, sides)


def wall(columns, rows, size, soils, sides, push, fixed=1):
    """Ground behind a smooth wall on its left that pushes (live) or yields (live the other way)."""

    def edge(a, b):
        if a[1] == b[1] == rows:
            return FREE
        if a[0] == b[0] == 0:
            return fixed, 0, 0, push, 0
        return SMOOTH

    return mesh_lines(block_cells(columns, rows), scaled(size), one_soil, edge, soils, sides)


def pieces(soils, sides, edged, soil=None):
    """Twenty-five separate squares, soils in turn or all the one; the first `edged` of them carry the load."""
    cells = [(2 * i, 2 * j) for j in range(5) for i in range(5)]
    loaded = set(cells[:edged])

    def edge(a, b):
        cell = min(a[0], b[0]) // 2 * 2, min(a[1], b[1]) // 2 * 2
        if cell not in loaded:
            return None
        if a[1] == b[1] == cell[1] + 1:
            return 3, 0, 0, -1, 0
        return FREE if a[0] == b[0] == cell[0] + 1 else SMOOTH

    soil_of = lambda i, j: (5 * (j // 2) + i // 2) % len(soils) + 1 if soil is None else soil
    return mesh_lines(cells, scaled(13), soil_of, edge, soils, sides)


def sheared(columns, rows, size, run, soils, sides, tractions):
    """A block whose columns lean by `run` in each layer; `tractions` gives the live normal and
    shear of its four sides: foot, right, top, left."""

    def at(i, j):
        return size * i + run * (rows - j), size * j

    def edge(a, b):
        if a[1] == b[1]:
            side = 2 if a[1] == rows else 0
        else:
            side = 1 if a[0] == columns else 3
        return 3, 0, 0, *tractions[side]

    return mesh_lines(block_cells(columns, rows), at, one_soil, edge, soils, sides)


def square_pieces(corner, inside, joined):
    """A square with no, two or three nodes inside: itself, or six or eight triangles, the first two as one."""
    a, b, c, d = corner
    if not inside:
        return [corner]
    p, q, *above = inside
    middle = [[p, q, c], [p, c, d]]
    if above:
        (e,) = above
        middle = [[p, q, e], [q, c, e], [e, c, d], [p, e, d]]
    foot = [[a, b, q, p]] if joined else [[a, b, q], [a, q, p]]
    return [*foot, [q, b, c], *middle, [d, a, p]]


def largest(soils, sides, size=13):
    """As much as a mesh may have: 100 nodes, 100 elements, 16 soils, 60 edges, 100 pairs of node and soil.
    Sixteen separate squares between smooth plates, each of its own soil; four have no line at their free side."""
    polygons, loads = [], {}
    for number in range(16):
        x, y = number % 4 * 5, number // 4 * 5
        a, b, c, d = corner = outline(x, y, 4)
        inside = [(x + 1, y + 2), (x + 3, y + 2), (x + 2, y + 3)][: 0 if number == 0 else 3 if number < 7 else 2]
        polygons += [(piece, number + 1) for piece in square_pieces(corner, inside, 7 <= number < 10)]
        free = None if x == 15 else FREE
        loads |= {(a, b): SMOOTH, (b, c): free, (c, d): (3, 0, 0, -1, 0), (d, a): SMOOTH}
    return polygon_mesh(polygons, scaled(size), lambda a, b: loads[a, b], soils, sides)


def plate_edge(width, height, confining=0):
    """The edges of a block between smooth plates, by points that are coordinates."""

    def edge(a, b):
        if a[1] == b[1] == height:
            return 3, 0, 0, -1, 0
        if a[0] == b[0] == width:
            return 3, -confining, 0, 0, 0
        return SMOOTH

    return edge


def triangle_block(size, soils, sides, confining=0, soil=1):
    """A block between smooth plates, cut into two triangles that repeat one node."""
    a, b, c, d = (0, 0), (size, 0), (size, size), (0, size)
    polygons = [([a, b, c], soil), ([d, a, c], soil)]
    return polygon_mesh(polygons, scaled(1), plate_edge(size, size, confining), soils, sides)


def fan_footing_polygons(right, deep):
    """A fan of eight triangles around (2, deep + 2) that fills four cells by two; `right` columns beside it and
    `deep` rows below it are cells."""
    top, apex = deep + 2, (2, deep + 2)
    ring = [(0, top), (0, top - 1), (0, deep), (1, deep), (2, deep), (3, deep), (4, deep), (4, top - 1), (4, top)]
    cells = [(i, j) for i, j in block_cells(4 + right, top) if i >= 4 or j < deep]
    return [([a, b, apex], 1) for a, b in zip(ring, ring[1:])] + [(outline(*cell), 1) for cell in cells]


def fan_footing(size, right, deep, soils, sides):
    """Half of a smooth strip footing, two cells wide, with a fan of triangles at its edge. As in `footing`, the
    side right of the footing's edge has no edge line."""
    top = deep + 2

    def edge(a, b):
        if a[1] == b[1] == top:
            if max(a[0], b[0]) <= 2:
                return 3, 0, 0, -1, 0
            return None if min(a[0], b[0]) <= 2 else FREE
        return SMOOTH if a[0] == b[0] == 0 else None

    return polygon_mesh(fan_footing_polygons(right, deep), scaled(size), edge, soils, sides)


def seam(size, fill, soft, sides, soils=(1, 1, 2)):
    """A seam of soft clay between two layers of fill, which come first, between smooth plates."""
    polygons = [(outline(0, j), soil) for j, soil in zip((0, 2, 1), soils)]
    return polygon_mesh(polygons, scaled(size), plate_edge(1, 3), [fill, soft], sides)


def wheel(size, soils, sides, order):
    """A block between smooth plates of sixteen triangles around one node, each of its own soil."""
    low, high = [(i, 0) for i in range(4)], [(4, i) for i in range(4)]
    ring = low + high + [(4 - x, 4 - y) for x, y in low + high]
    spokes = zip(ring, ring[1:] + ring[:1], order)
    polygons = [([a, b, (2, 2)], soil) for a, b, soil in spokes]
    return polygon_mesh(polygons, scaled(size), plate_edge(4, 4), soils, sides)


def joint_blocks(size, soils, sides, tag):
    """Two blocks side by side between smooth walls on a smooth floor: the left one is loaded, the right one's top
    is free. Points of the right block at the joint have `tag`: with it the blocks meet in a joint, and with none
    they share nodes."""
    left, right = [(0, 0), (1, 0), (1, 1), (0, 1)], [(1, 0, *tag), (2, 0), (2, 1), (1, 1, *tag)]

    def edge(a, b):
        if a[1] == b[1] == 1:
            return (3, 0, 0, -1, 0) if max(a[0], b[0]) == 1 else FREE
        return None if a[0] == b[0] == 1 else SMOOTH

    return polygon_mesh([(left, 1), (right, 1)], scaled(size), edge, soils, sides)


def leaning_joint(size, soils, sides, confining=0):
    """A block between smooth plates, cut by a joint that leans."""
    left, right = [(0, 0), (1, 0), (3, 2), (0, 2)], [(1, 0, 1), (4, 0), (4, 2), (3, 2, 1)]

    def edge(a, b):
        return None if {a[:2], b[:2]} == {(1, 0), (3, 2)} else plate_edge(4, 2, confining)(a, b)

    return polygon_mesh([(left, 1), (right, 1)], scaled(size), edge, soils, sides)


def joint_grid(size, soils, sides):
    """A block between smooth plates of 25 cells, each with nodes of its own: stress may jump between any two."""
    polygons = [([(*point, k) for point in outline(*cell)], 1) for k, cell in enumerate(block_cells(5, 5))]
    outside = plate_edge(5, 5)

    def edge(a, b):
        on_rim = {a[0], b[0]} in ({0}, {5}) or {a[1], b[1]} in ({0}, {5})
        return outside(a, b) if on_rim else None

    return polygon_mesh(polygons, scaled(size), edge, soils, sides)


def jointed(cells, column, top, depth):
    """Cells with an upright joint at `column`, from height `top` down `depth` cells: the nodes of the joint are
    doubled but the lowest, its tip."""

    def point_of(point, i):
        doubled = point[0] == column == i and top - depth < point[1] <= top
        return (*point, 1) if doubled else point

    return [([point_of(point, cell[0]) for point in outline(*cell)], 1) for cell in cells]


def tip_footing(columns, rows, size, width, soils, sides, depth):
    """Half of a smooth strip footing with a joint down from its edge, in which loaded and free surface meet."""
    polygons = jointed(block_cells(columns, rows), width, rows, depth)

    def edge(a, b):
        if a[1] == b[1] == rows:
            return (3, 0, 0, -1, 0) if max(a[0], b[0]) <= width else FREE
        return SMOOTH if a[0] == b[0] == 0 else None

    return polygon_mesh(polygons, scaled(size), edge, soils, sides)


def tip_cut(columns, rows, size, column, row, soils, sides, depth):
    """The vertical cut of `cut` with a joint down from its toe, so that wall and floor share no node."""
    cells = [(i, j) for i, j in block_cells(columns, rows) if i < column or j < row]

    def edge(a, b):
        top = a[1] == b[1] == rows
        wall = a[0] == b[0] == column and min(a[1], b[1]) >= row
        floor = a[1] == b[1] == row and min(a[0], b[0]) >= column
        return FREE if top or wall or floor else None

    return polygon_mesh(jointed(cells, column, row, depth), scaled(size), edge, soils, sides)


def jointed_fan(size, right, deep, soils, sides):
    """The fan of `fan_footing` with joints between its triangles: each has its own stress at the footing's edge."""
    top = deep + 2
    mesh = fan_footing_polygons(right, deep)
    fan = [([a, b, (*apex, k)], 1) for k, ((a, b, apex), _) in enumerate(mesh[:8])]

    def edge(a, b):
        if a[1] == b[1] == top:
            return (3, 0, 0, -1, 0) if max(a[0], b[0]) <= 2 else FREE
        return SMOOTH if a[0] == b[0] == 0 else None

    return polygon_mesh(fan + mesh[8:], scaled(size), edge, soils, sides)


def bars(size, others, soils, sides):
    """A bar between smooth plates, and other bars that carry nothing."""
    a, b, c, d = upright = [(1, 0), (2, 0), (2, 3), (1, 3)]
    loads = {(a, b): SMOOTH, (b, c): FREE, (c, d): (3, 0, 0, -1, 0), (d, a): SMOOTH}
    polygons = [(upright, 1)] + [(other, 1) for other in others]
    return polygon_mesh(polygons, scaled(size), lambda a, b: loads.get((a, b), FREE), soils, sides)


def by_soil(mesh):
    """The mesh with its elements in the order of their soils."""
    nodes, elements, soils = mesh[0][:3]
    first = 1 + soils + nodes
    ordered = sorted(mesh[first : first + elements], key=lambda element: element[4])
    return mesh[:first] + ordered + mesh[first + elements :]


def moved(mesh, shifts):
    """The mesh with some nodes (numbered from 1) moved."""
    first = 1 + mesh[0][2]
    lines = [list(line) for line in mesh]
    for node, (x, y) in shifts.items():
        line = lines[first + node - 1]
        line[0], line[1] = line[0] + x, line[1] + y
    return lines


def printed(text):
    """Lines as document 01 prints them."""
    return [[int(number) for number in line.split()] for line in text.split("/")]


WORKED_MESH = (
    "4 1 1 3 12 0 / 0 1 1 10 0 0 0 0 0 0 / 0 0 / 1 0 / 1 1 / 0 1 / 1 2 3 4 1 / "
    "3 4 3 {dead} 0 {live} 0 / 2 3 3 0 0 0 0 / 4 1 3 0 0 0 0"
)
ZEROS = " / " + " ".join(["0"] * 12)


def worked_mesh(dead=0, live=-1):
    return printed(WORKED_MESH.format(dead=dead, live=live))


def worked_claim(n, l, sy, foot=-30):
    field = f"1 1 {n} {l}" + f" / 0 {sy} 0" * 4
    third = " / 1 0 0 0 0 0 0 0 0 0 0 1"
    return printed(field + f" / 0 0 / 30 0 0 0 / 0 0 {foot} 0 / 0 0 0 0" + 2 * ZEROS + third + ZEROS)


def paper_sheets():
    """The sheets of document 01's own section."""
    refused = lambda number, place: [str(number), str(place), "none", "none"]
    sheet = lambda name, mesh, claim, *line: Sheet(name, mesh, claim=claim, line=list(line))
    corner_mesh = printed(
        "4 1 1 2 12 0 / 0 1 1 10000 0 0 0 0 0 0 / 0 0 / 169 0 / 288 120 / 0 120 / 1 2 3 4 1 / "
        "1 2 3 -1 1 6000 6600 / 2 3 3 0 0 -6000 6500"
    )
    corner_claim = printed("0 1 0 0 / 0 0 / 0 0 -119 -120 / 119 -120 0 0" + 4 * ZEROS)
    return [
        sheet("worked", worked_mesh(), worked_claim(1, 20, -20), "0", "0", "20.000000", "20.000000"),
        sheet("worked_below", worked_mesh(), worked_claim(1, 19, -19), "0", "2", "19.000000", "20.000000"),
        sheet("worked_above", worked_mesh(), worked_claim(1, 21, -21), *refused(22, 1)),
        sheet("worked_unbalanced", worked_mesh(), worked_claim(1, 20, -21), *refused(21, 3)),
        sheet("worked_column", worked_mesh(), worked_claim(1, 20, -20, -29), *refused(32, 7)),
        sheet("third", worked_mesh(0, -60), worked_claim(3, 1, -60), "0", "0", "0.333333", "0.333334"),
        sheet("third_below_zero", worked_mesh(-40, -60), worked_claim(3, -1, -60), "0", "0", "-0.333334", "-0.333333"),
        sheet("two_thirds", worked_mesh(0, -30), worked_claim(3, 2, -60), "0", "0", "0.666666", "0.666667"),
        sheet("one_in_three_million", corner_mesh, corner_claim, "0", "none", "none", "0.000000"),
    ]


def known_sheets():
    """Sheets whose load the literature knows (README.md of the sheets)."""
    weight = (0, -1)
    return [
        Sheet("block_clay_12", block(1, 1, 1, [clay(10)], 12)),
        Sheet("block_clay_20", block(2, 1, 25, [clay(7)], 20, 3)),
        Sheet("block_clay_36", block(3, 3, 65, [clay(9)], 36)),
        Sheet("block_sand_12", block(1, 1, 1, [sand(3, 4, 5, 10)], 12, 10)),
        Sheet("block_sand_20", block(2, 2, 5, [sand(3, 4, 5, 0)], 20, 10)),
        Sheet("block_sand_36", block(1, 1, 13, [sand(5, 12, 13, 6)], 36, 4)),
        Sheet("block_largest", block(9, 9, 5, [clay(10)], 12)),
        Sheet("footing_12", footing(4, 3, 10, 1, [clay(10)], 12)),
        Sheet("footing_20", footing(6, 4, 50, 2, [clay(10)], 20)),
        Sheet("footing_36", footing(6, 4, 65, 2, [clay(10)], 36)),
        Sheet("footing_largest_12", footing(9, 9, 10, 3, [clay(10)], 12)),
        Sheet("footing_largest_20", footing(9, 9, 50, 3, [clay(10)], 20)),
        Sheet("footing_largest_36", footing(9, 9, 65, 3, [clay(10)], 36)),
        Sheet("cut_12", cut(4, 4, 10, 2, 2, [clay(100, live=weight)], 12)),
        Sheet("cut_20", cut(6, 6, 5, 3, 3, [clay(100, live=weight)], 20)),
        Sheet("cut_36", cut(6, 6, 65, 3, 3, [clay(1000, live=weight)], 36)),
        Sheet("cut_sand", cut(2, 2, 10, 1, 1, [sand(3, 4, 5, 100, live=weight)], 12)),
        Sheet("cut_sand_wide", cut(3, 3, 10, 1, 1, [sand(5, 12, 13, 100, live=weight)], 12)),
        Sheet("wall_passive_sand", wall(2, 2, 10, [sand(3, 4, 5, 10, dead=weight)], 12, -1)),
        Sheet("wall_passive_clay", wall(3, 2, 10, [clay(40)], 12, -1)),
        Sheet("wall_active_clay", wall(2, 2, 10, [clay(40)], 12, 1)),
    ]


def other_sheets():
    """One and several soils, dead and live forces, fixed and unfixed parts, parts alone."""
    weight, sideways = (0, -1), (1, 0)
    layers = lambda i, j: 1 if j >= 2 else 2
    columns = lambda i, j: 1 + i % 3
    return [
        Sheet("slope_clay", slope(3, 2, 10, 10, [clay(60, live=weight)], 12)),
        Sheet("slope_clay_20", slope(4, 3, 50, 50, [clay(500, live=weight)], 20)),
        Sheet("slope_clay_36", slope(4, 4, 65, 65, [clay(900, live=weight)], 36)),
        Sheet("slope_sand", slope(2, 2, 10, 10, [sand(3, 4, 5, 60, live=weight)], 12)),
        Sheet("slope_steep", slope(3, 3, 10, 5, [clay(70, live=weight)], 12), ("field", 0.02)),
        Sheet("bank_shaken", slope(3, 2, 10, 10, [clay(90, dead=weight, live=sideways)], 12)),
        Sheet("bank_face_normal", slope(3, 2, 10, 10, [clay(60, live=weight)], 12, 1)),
        Sheet("layers_footing", footing(5, 4, 10, 1, [clay(10), clay(25)], 12, layers)),
        Sheet("layers_footing_weight", footing(5, 4, 10, 1, [clay(30, dead=weight), clay(50, dead=weight)], 12, layers, 5)),
        Sheet("layers_cut", cut(4, 4, 10, 2, 2, [clay(60, live=weight), clay(100, live=weight)], 20, layers), ("field",)),
        Sheet("pieces_sixteen_soils", pieces([clay(30 + k * 7 % 16) for k in range(16)], 36, 15)),
        Sheet("soils_block", block(3, 2, 5, [clay(10), clay(14), clay(12)], 12, 2, columns)),
        Sheet("soils_sand_block", block(3, 2, 5, [sand(3, 4, 5, 1), sand(4, 3, 5, 2), clay(90)], 12, 3, columns), ("field",)),
        Sheet("footing_field", footing(8, 6, 50, 2, [clay(12)], 20), ("field", 0.05)),
        Sheet("footing_multipliers", footing(8, 6, 50, 2, [clay(12)], 20), ("multipliers",)),
        Sheet("footing_sand_field", footing(9, 4, 10, 1, [sand(7, 24, 25, 10)], 12), ("field", 0.01)),
        Sheet("cut_below", cut(4, 4, 10, 2, 2, [clay(100, live=weight)], 12), ("both", 0.1)),
        Sheet("cut_surcharge", cut(4, 4, 10, 2, 2, [clay(100, live=weight)], 12, surcharge=20)),
        Sheet("cut_deep", cut(10, 9, 50, 5, 4, [clay(1000, live=weight)], 20)),
        Sheet("cut_multipliers", cut(4, 4, 65, 2, 2, [clay(100, live=weight)], 36), ("multipliers",)),
        Sheet("cut_sand_above", cut(4, 4, 10, 2, 2, [sand(7, 24, 25, 100, live=weight)], 12)),
    ]


def load_sheets():
    """Sheets with shear on level, upright and leaning edges, and with irregular elements."""
    pure = [(0, -1), (0, 1), (0, -1), (0, 1)]
    leaning = [(0, 0), (-1, 1), (0, 0), (-1, 1)]
    mixed = [(-2, -1), (-3, 1), (-2, -1), (-3, 1)]
    return [
        Sheet("shear_block", sheared(1, 1, 1, 0, [clay(10)], 12, pure)),
        Sheet("shear_block_20", sheared(2, 2, 25, 0, [clay(10)], 20, pure)),
        Sheet("shear_block_sand", sheared(2, 1, 5, 0, [sand(3, 4, 5, 10)], 12, pure)),
        Sheet("shear_leaning", sheared(2, 2, 10, 10, [clay(10)], 12, leaning)),
        Sheet("shear_leaning_36", sheared(1, 1, 65, 65, [clay(10)], 36, leaning)),
        Sheet("shear_leaning_sand", sheared(1, 2, 5, 5, [sand(3, 4, 5, 10)], 12, leaning)),
        Sheet("shear_mixed", sheared(2, 2, 5, 0, [clay(10)], 12, mixed)),
        Sheet("irregular_block", moved(block(2, 2, 20, [clay(10)], 12), {5: (-10, -5)})),
        Sheet("irregular_cut", moved(cut(2, 2, 20, 1, 1, [clay(100, live=(0, -1))], 12), {4: (5, -10)})),
        Sheet("irregular_footing", moved(footing(3, 2, 20, 1, [clay(10)], 12), {7: (-5, -5)})),
        Sheet("irregular_footing_rounded", moved(footing(3, 2, 20, 1, [clay(10)], 12), {6: (-5, 5)})),
        Sheet("largest", largest([clay(40 + 3 * k % 16) for k in range(16)], 36)),
    ]


def corner_sheets():
    """Numbers at the limits, by hand: stresses, n and l, and wide loads either way. The large square leaves a corner
    of the field to the small one, which makes m = 1.

    Level and upright edges both fix t at a corner they share, so equal multipliers on their
    shear rows leave every column 0 and add up what the two edges ask."""
    small = "4 1 1 3 12 0 / 0 1 1 10000 0 0 0 0 0 0 / 900 900 / 1000 900 / 1000 1000 / 900 1000 / 1 2 3 4 1 / "
    small += "3 4 3 0 0 -10 0 / 2 3 3 0 0 0 0 / 4 1 3 0 0 0 0"
    field = "1 1 50000 100000000" + " / 0 -1000000000 0" * 4 + " / 0 0 / 30 0 0 0 / 0 0 -30 0 / 0 0 0 0"
    full = " / 10000 0 0 0 0 0 0 0 0 0 0 10000"
    two = "8 2 1 6 36 0 / 0 1000 1000 10000 0 0 0 0 0 0 / 0 0 / 999 0 / 999 999 / 0 999 / "
    two += "999 999 / 1000 999 / 1000 1000 / 999 1000 / 1 2 3 4 1 / 5 6 7 8 1 / "
    two += "1 2 3 0 {d} 0 0 / 2 3 3 0 {d} 0 0 / 3 4 3 0 {d} 0 0 / 4 1 3 0 {d} 0 0 / 5 6 3 0 0 0 0 / 6 7 3 0 0 0 -1"
    pair = "0 1 0 0 / 0 0 / 0 0" + " / 0 {y} 0 {y}" * 4 + " / 0 0 0 1 / 0 1 0 0"
    lines = lambda y: (" / " + " ".join([str(y)] * 36)) * 8
    sheet = lambda name, mesh, claim: Sheet(name, printed(mesh), claim=printed(claim))
    return [
        sheet("limits", small, field + 2 * ZEROS + full + ZEROS),
        sheet("widest_limit", two.format(d=10000), pair.format(y=100000) + lines(10000)),
        sheet("lowest_limit", two.format(d=-10000), pair.format(y=100000) + lines(0)),
    ]


def triangle_sheets():
    """Triangles (document 02, N1)."""
    return [
        Sheet("triangle_block", triangle_block(10, [clay(10)], 12)),
        Sheet("triangle_block_sand", triangle_block(10, [sand(3, 4, 5, 10)], 20, 10)),
        Sheet("fan_footing_12", fan_footing(10, 1, 1, [clay(10)], 12)),
        Sheet("fan_footing_20", fan_footing(50, 2, 2, [clay(10)], 20)),
    ]


def pair_sheets():
    """Nodes where soils meet (document 02, N2). The field of seam_fault carries the fill's load: every node of
    the seam is a corner of fill as well."""
    top = lambda i, j: 1 if j >= 2 else 2
    between = seam(10, clay(30), clay(10), 12)
    fault = printed("1 0 1 60" + " / 0 -60 0" * 8)
    return [
        Sheet("seam", between),
        Sheet("seam_fault", between, claim=fault, line=["22", "37", "none", "none"]),
        Sheet("fill_on_clay", by_soil(footing(3, 3, 10, 1, [sand(3, 4, 5, 5), clay(10)], 12, top))),
        Sheet("wheel_sixteen_soils", wheel(5, [clay(20 + k) for k in range(16)], 12, [7 * k % 16 + 1 for k in range(16)])),
    ]


def jump_sheets():
    """Stress jumps across a joint (document 02, N6). In joint_blocks_uneven the level push of the blocks on each
    other differs."""
    joint, soil = joint_blocks(10, [clay(10)], 12, (1,)), [clay(10)]
    level = " / -20 -40 0 / -20 -40 0 / -19 0 0 / -19 0 0"
    uneven = printed("1 0 1 40" + 2 * level)
    return [
        Sheet("joint_blocks", joint),
        Sheet("joint_blocks_shared", joint_blocks(10, soil, 12, ())),
        Sheet("joint_blocks_uneven", joint, claim=uneven, line=["21", "29", "none", "none"]),
        Sheet("joint_leaning", leaning_joint(10, [sand(3, 4, 5, 10)], 12, 10)),
        Sheet("joint_tip_footing", tip_footing(4, 3, 10, 1, soil, 12, 1)),
        Sheet("joint_tip_cut", tip_cut(4, 4, 10, 2, 2, [clay(100, live=(0, -1))], 12, 1)),
        Sheet("joint_fan_12", jointed_fan(10, 1, 1, soil, 12)),
        Sheet("joint_fan_20", jointed_fan(10, 1, 1, soil, 20)),
        Sheet("joint_grid", joint_grid(65, soil, 36)),
    ]


def table_sheets():
    """Soils from a borehole table (document 02, N8)."""
    soils = [clay(cohesion, live=(0, -1)) for cohesion in (60, 40, 90)]
    none, face = lambda i, j: 0, lambda i, j: 2 if i == 2 else 0
    layers = printed("20 40 2 / -5 10 3 / 10 20 1")
    bank = lambda soil_of: slope(3, 3, 10, 10, soils, 20, soil_of=soil_of)
    between = seam(10, clay(30), clay(10), 12, (0, 0, 0))
    flat, worked = printed("1 0 1 20" + " / 0 -20 0" * 8), worked_claim(1, 20, -20)
    refused = lambda number, place: [str(number), str(place), "none", "none"]
    overlap = printed("20 31 1 / 10 20 2 / 0 11 1")
    sixteen = [clay(30 + 7 * k % 16) for k in range(16)]
    thin = [[4 * k, 4 * k + 4, 7 * k % 16 + 1] for k in range(32)]
    return [
        Sheet("table_slope", bank(none), table=layers),
        Sheet("table_slope_mixed", bank(face), table=layers),
        Sheet("table_slope_written", bank(lambda i, j: (3, 1, 2)[j])),
        Sheet("table_seam", between, table=printed("20 31 1 / 10 20 2 / 0 10 1")),
        Sheet("table_triangle", triangle_block(10, [clay(10), clay(5)], 12, soil=0), table=printed("0 4 2 / 4 11 1")),
        Sheet("table_overlap", between, claim=flat, line=refused(46, 1003), table=overlap),
        Sheet("table_gap", worked_mesh(), claim=worked, line=refused(45, 4), table=printed("0 1 1")),
        Sheet("table_pieces", pieces(sixteen, 36, 15, 0), table=thin),
        Sheet("table_worked", worked_mesh(), claim=worked, table=printed("0 2 1")),
    ]


def widest_many_sides():
    """The widest load with 108 sides: 40 nodes, every strength multiplier at its limit, and m = 1 by two shear rows
    at a corner of a small square; so do the shear rows of nine others add up what their edges ask."""
    places = [(330 * i, 330 * j, 300) for j in range(3) for i in range(3)] + [(999, 999, 1)]
    corner = [[(x, y), (x + d, y), (x + d, y + d), (x, y + d)] for x, y, d in places]
    nodes = [[*point] for square in corner for point in square]
    numbers = [[4 * k + i for i in range(1, 5)] for k in range(10)]
    edges = [[a, b, 3, 0, 10_000, 0, 0] for square in numbers[:9] for a, b in zip(square, square[1:] + square[:1])]
    edges += [[37, 38, 3, 0, 0, 0, 0], [38, 39, 3, 0, 0, 0, -1]]
    header = [40, 10, 1, len(edges), 108, 0]
    mesh = [header, [0, 1000, 1000, 10_000, 0, 0, 0, 0, 0, 0], *nodes, *([*square, 1] for square in numbers), *edges]
    claim = [[0, 1, 0, 0], *[[0, 0]] * 10, *[[0, 100_000, 0, 100_000]] * 36, [0, 0, 0, 1], [0, 1, 0, 0]]
    return Sheet("widest_108", mesh, claim=claim + [[300] * 108] * 40)


def side_sheets():
    """One hundred and eight sides (document 02, N9)."""
    leaning = [(0, 0), (-1, 1), (0, 0), (-1, 1)]
    return [
        Sheet("block_sand_108", block(1, 1, 13, [sand(3, 4, 5, 10)], 108, 10)),
        Sheet("shear_leaning_108", sheared(1, 1, 65, 65, [clay(10)], 108, leaning)),
        Sheet("footing_108", footing(6, 4, 65, 2, [clay(10)], 108), ("both", 0.0, 0.0, 400)),
        Sheet("footing_largest_108", footing(7, 4, 85, 2, [clay(10)], 108), ("both", 0.0, 0.0, 300)),
        widest_many_sides(),
    ]


def overlap_sheets():
    """Elements that lie on each other, or touch (document 02, N10). Before, both refused meshes passed."""
    crossing = bars(10, [[(0, 1), (3, 1), (3, 2), (0, 2)]], [clay(10)], 12)
    beside, corner = [(2, 1), (5, 1), (5, 2), (2, 2)], [(2, 3, 1), (4, 3), (4, 4), (2, 4)]
    across = [stress for x, y in crossing[2:10] for stress in ([[0, -20, 0]] if x in (10, 20) else [[0, 0, 0]])]
    fan = [list(line) for line in fan_footing(10, 1, 1, [clay(10)], 12)]
    fifth = fan[2 + fan[0][0] + 4]
    fifth[1] = 4  # the node below the one meant
    still = [[1, 0, 1, 0], *[[0, 0, 0]] * fan[0][0]]
    refused = lambda element: ["47", str(element), "none", "none"]
    return [
        Sheet("bars_crossing", crossing, claim=[[1, 0, 1, 20], *across], line=refused(2)),
        Sheet("bars_touching", bars(10, [beside, corner], [clay(10)], 12)),
        Sheet("fan_folded", fan, claim=still, line=refused(11)),
    ]


def bedded_sheets():
    """Ground that is stronger one way (document 02, N14): cv as large as ch, and half of it."""
    bedded = lambda ch, cv, **forces: clay(ch, bedded=(1, cv), **forces)
    weight = {"live": (0, -1)}
    sixteen = [bedded(60 + 14 * k % 32, 30 + 7 * k % 16) for k in range(16)]
    unused = [list(line) for line in worked_mesh()]
    unused[0][2] = 2
    unused.insert(2, bedded(10, 5))
    return [
        Sheet("bedded_block", block(1, 1, 10, [bedded(10, 10)], 12)),
        Sheet("bedded_block_half", block(1, 1, 10, [bedded(10, 5)], 12)),
        Sheet("bedded_block_sand", block(1, 1, 10, [sand(3, 4, 5, 10, bedded=(1, 10))], 36, 10)),
        Sheet("bedded_slope", slope(3, 2, 10, 10, [bedded(60, 60, **weight)], 12)),
        Sheet("bedded_slope_half", slope(3, 2, 10, 10, [bedded(60, 30, **weight)], 12)),
        Sheet("bedded_pieces", pieces(sixteen, 36, 15)),
        Sheet("bedded_seam", seam(10, clay(30), bedded(10, 5), 12)),
        Sheet("bedded_unused", unused, claim=worked_claim(1, 20, -20), line=["0", "0", "none", "20.000000"]),
    ]


SHEETS = paper_sheets() + known_sheets() + other_sheets() + load_sheets() + corner_sheets() + triangle_sheets()
SHEETS += pair_sheets() + jump_sheets() + table_sheets() + side_sheets() + overlap_sheets() + bedded_sheets()


def bedded_run():
    """Document 01's square of bedded clay, ch 10 and cv 6 (document 02, N14). On the planes with normals (4, 3) and
    (-4, 3) it carries 12·sy up to 250 - 4·16 = 186, so 15.5."""
    mesh = [list(line) for line in worked_mesh()]
    mesh[1] = clay(10, bedded=(1, 6))
    equalities, zeros = printed("0 0 / 24 0 0 0 / 0 0 -24 0 / 0 0 0 0"), [0] * 12
    multipliers = equalities + [zeros, zeros, [0, 0, 0, 1, 0, 0, 0, 0, 0, 0, 1, 0], zeros]
    field = lambda there, n, l: [[1, there, n, l]] + [[0, -l, 0]] * 4
    both = [field(1, n, l) + multipliers for n, l in ((2, 31), (1, 15), (2, 32))]
    return Run("bedded_square", mesh, [*both, field(0, 2, 31), [[0, 1, 0, 0]] + multipliers], 50 * 113)


def runs():
    """Solver runs handed over whole (document 02, N3)."""
    steps = [("field", 0.2), ("field", 0.1), ("field", 0.05), (("field", 0.02)), ("both", 0.0), ("multipliers", 0.0)]
    good, above, tilted = worked_claim(1, 20, -20), worked_claim(1, 21, -21), worked_claim(1, 20, -20, -29)
    large_n = worked_claim(100_001, 20, -20)
    return [
        Run("footing_steps", footing(4, 3, 10, 1, [clay(10)], 12), steps, 50 * 113),
        Run("worked_refused", worked_mesh(), [good, above, tilted, good, large_n, good], 50 * 113),
        Run("worked_little_room", worked_mesh(), [good] * 5, 400),
        Run("worked_cut_short", worked_mesh(), [good, good], 50 * 113, 13),
        bedded_run(),
    ]


RUNS = runs()

# Sheets and decimals (document 02, N5): 43 for -1 and 8, a claim that is refused, the widest loads.
DECIMALS = [(name, decimals) for name in ("third_below_zero", "two_thirds") for decimals in (0, 3, 7)]
DECIMALS += [("widest_limit", 0), ("widest_limit", 7), ("widest_108", 7), ("lowest_limit", 7), ("one_in_three_million", 7)]
DECIMALS += [("worked_above", 3), ("worked", -1), ("worked", 8)]

# Meshes whose sizes are told (document 02, N7): triangles, two soils, jumps, the largest, soils from a table, soils of
# both kinds.
SIZES = ["worked", "triangle_block", "seam", "joint_blocks", "joint_grid", "footing_36", "largest"]
SIZES += ["table_slope", "table_seam", "table_gap", "bedded_seam"]
