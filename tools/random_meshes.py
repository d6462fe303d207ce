"""Meshes of ordinary whole coordinates by seed, for measuring and testing the making of claims: footings, slopes and
cuts on grids whose nodes are moved by up to a quarter of a step."""

import random
from collections import namedtuple

import rows as exact
from sheet_list import clay, outline, polygon_mesh, sand

SHAPES = ("footing", "slope", "cut")
SOILS = ("clay", "sand", "layers", "table", "bedded")
FORMS = ("quadrilaterals", "triangles", "joint")
SIDES = (12, 20, 36, 108)
FRICTION = ((3, 4, 5), (5, 12, 13), (4, 3, 5), (8, 15, 17))

# step: the range that a grid's step is drawn from.
Kind = namedtuple("Kind", "shape soils form sides columns rows step", defaults=((6, 20),))
# A mesh and its table as lines.
Drawn = namedtuple("Drawn", "mesh table")


def crest_columns(kind):
    """The columns of cells whose surface is level and high."""
    if kind.shape == "slope":
        return max(1, (kind.columns - 1) // 3)
    return max(1, (kind.columns - 1) // 2) if kind.shape == "cut" else kind.columns - 1


def joint_column(kind):
    """The end of a load, and of a cut's left half."""
    return max(1, crest_columns(kind) // 2)


class Grid:
    """The points of a grid by column and row, row 0 at the bottom. The surface stays straight where edges are loaded
    or free, so only points below it are moved; points of the left side and of a joint only up and down, since across
    a leaning joint the stresses beside a load and a free surface don't jump."""

    def __init__(self, kind, chance):
        self.columns, self.rows, self.chance = kind.columns, kind.rows, chance
        self.step = chance.randint(*kind.step)
        self.joint = joint_column(kind) if kind.form == "joint" else 0

    def width(self):
        return self.chance.randint(max(1, self.step * 3 // 4), self.step * 5 // 4)

    def moved(self, far):
        reach = self.step // 4
        return self.chance.randint(-reach, reach) if far else 0

    def level(self):
        """The place of each point."""
        xs = [0]
        for _ in range(self.columns - 1):
            xs.append(xs[-1] + self.width())
        at = {}
        for i in range(self.columns):
            for j in range(self.rows):
                inside = i not in (0, self.joint) and 0 < j < self.rows - 1
                at[i, j] = xs[i] + self.moved(inside), self.step * j + self.moved(0 < j < self.rows - 1)
        return at

    def bank(self, crest):
        """The same for a crest, a face that falls in whole steps, and a floor before its toe."""
        across, down = self.chance.choice([(1, 1), (2, 3), (1, 2), (3, 4), (2, 1)])
        toe = max(1, (self.columns - 1) // 4)
        falls = [max(1, self.width() // max(across, down)) for _ in range(self.columns - 1 - crest - toe)]
        low = self.step * (self.rows - 1)
        xs, tops = [0], [low + down * sum(falls)]
        for k in range(self.columns - 1):
            fall = falls[k - crest] if 0 <= k - crest < len(falls) else 0
            xs.append(xs[-1] + (across * fall or self.width()))
            tops.append(tops[-1] - down * fall)
        at = {}
        for i in range(self.columns):
            for j in range(self.rows):
                inside = i not in (0, self.joint) and 0 < j < self.rows - 1
                y = tops[i] * j // (self.rows - 1) + self.moved(0 < j < self.rows - 1)
                at[i, j] = xs[i] + self.moved(inside), y
        return at


def soils_of(kind, chance, dead, live):
    """(soil lines, the soil of a grid row, layers as a table or none)."""
    cohesion = lambda: chance.choice([7, 10, 20, 25, 30, 50, 100, 137])
    friction = lambda: (*chance.choice(FRICTION), cohesion())
    if kind.soils == "sand":
        return [sand(*friction(), dead, live)]
    if kind.soils in ("layers", "table"):
        return [clay(cohesion(), dead, live), sand(*friction(), dead, live)]
    bedded = 0, 0
    weak = cohesion()
    if kind.soils == "bedded":
        bedded = 1, chance.randint(weak // 3, weak)
    return [clay(weak, dead, live, bedded)]


def cells_of(kind, crest):
    """The grid cells that are there, and the row of the surface over each column."""
    top = [kind.rows - 1] * (kind.columns - 1)
    if kind.shape == "cut":
        floor = max(1, (kind.rows - 1) // 2)
        top = [kind.rows - 1 if i < crest else floor for i in range(kind.columns - 1)]
    return [(i, j) for i, high in enumerate(top) for j in range(high)], top


def polygons_of(kind, cells, at, soil_of, joint, chance):
    """Cells as quadrilaterals, some of them as two triangles; right of a joint, points above its tip are doubled."""
    tip = max(1, kind.rows - 3)
    polygons = []
    for i, j in cells:
        corner = [p + (1,) if joint == p[0] == i and p[1] > tip else p for p in outline(i, j)]
        turns = [exact.turn(*(at[corner[(k + d) % 4][:2]] for d in (-1, 0, 1))) for k in range(4)]
        if min(turns) <= 0:
            return None
        if kind.form == "triangles" and chance.random() < 0.15:
            k = chance.randrange(2)
            a, b, c, d = corner[k:] + corner[:k]
            polygons += [((a, b, c), soil_of(j)), ((a, c, d), soil_of(j))]
        else:
            polygons.append((corner, soil_of(j)))
    return polygons


def edges_of(kind, top, crest, loaded, push, surcharge, rough):
    """What an outer side has: the left one is a line of symmetry, the bottom and the right one may carry anything."""

    def edge(a, b):
        if a[0] == b[0] == 0:
            return 2, 0, 0, 0, 0
        wall = kind.shape == "cut" and a[0] == b[0] == crest and min(a[1], b[1]) >= min(top)
        if wall:
            return 3, 0, 0, 0, 0
        column = min(a[0], b[0])
        if a[0] == b[0] or a[1] != b[1] or a[1] != top[column]:
            return None
        if column < loaded:
            return 1 if rough else 3, 0, 0, push, 0
        # A node can't carry the load and be free: without a joint the side beside the load has no edge line.
        if loaded and column == loaded and kind.form != "joint":
            return None
        return 3, -surcharge, 0, 0, 0

    return edge


def drawn(kind, chance):
    """A mesh, or None where it doesn't come out well."""
    grid, crest = Grid(kind, chance), crest_columns(kind)
    at = grid.bank(crest) if kind.shape == "slope" else grid.level()
    by_weight = kind.shape == "cut" or kind.shape == "slope" and chance.random() < 0.5
    dead, live = ((0, 0), (0, -1)) if by_weight else ((0, -chance.choice([0, 1, 1, 2])), (0, 0))
    soils = soils_of(kind, chance, dead, live)
    seam = (kind.rows - 1) // 2
    soil_of = lambda j: 0 if kind.soils == "table" else 1 if len(soils) == 1 or j < seam else 2
    loaded = 0 if by_weight else joint_column(kind)
    cells, top = cells_of(kind, crest)
    polygons = polygons_of(kind, cells, at, soil_of, grid.joint, chance)
    if polygons is None:
        return None
    surcharge = chance.choice([0, 0, 5]) if kind.shape == "footing" else 0
    edge = edges_of(kind, top, crest, loaded, -1, surcharge, chance.random() < 0.5)
    mesh = polygon_mesh(polygons, lambda i, j: at[i, j], edge, soils, kind.sides)
    table = []
    if kind.soils == "table":
        height = sum(at[i, seam][1] for i in range(kind.columns)) // kind.columns
        table = [[height, 1_200, 2], [-100, height, 1]]
    return Drawn(mesh, table)


def random_mesh(kind, seed):
    """The mesh of these words; tries until it is one that the check takes."""
    chance = random.Random(f"{kind} {seed}")
    while True:
        found = drawn(kind, chance)
        if found is None:
            continue
        try:
            exact.judged_mesh(*exact.mesh_files(*map(exact.text_of, found)))
        except exact.Refused:
            continue
        return found
