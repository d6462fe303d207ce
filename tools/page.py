"""Where a mesh lies on the page of its picture, and the axes with its coordinates."""

import math

import rows
from svg import label, line, unit

LEFT, RIGHT, ABOVE, BELOW = 118, 84, 84, 96
WIDEST = 1_600
NARROWEST = 720
SPAN = 560
SHORTEST_SIDE = 76
AXIS_AWAY, AXIS, TICK_APART = 64, "#909090", 46


class Page:
    """Where the mesh lies on the page."""

    def __init__(self, mesh, top):
        self.mesh = mesh
        xs, ys = zip(*mesh.nodes)
        self.xs, self.ys, self.top = (min(xs), max(xs)), (min(ys), max(ys)), top
        across, up = max(xs) - min(xs), max(ys) - min(ys)
        span = max(across, up, 1)
        sides = [math.dist(mesh.nodes[a], mesh.nodes[b]) for e in mesh.elements for a, b in rows.sides_of(e)]
        shortest = min((length for length in sides if length), default=span)
        self.scale = min(max(SPAN / span, SHORTEST_SIDE / shortest), WIDEST / span)
        self.width = max(across * self.scale + LEFT + RIGHT, NARROWEST)
        self.shift = LEFT + (self.width - LEFT - RIGHT - across * self.scale) / 2
        self.bottom = top + ABOVE + up * self.scale + BELOW
        self.shapes = [self.element(element) for element in mesh.elements]
        self.shared = {place for place in mesh.nodes if mesh.nodes.count(place) > 1}

    def at(self, node):
        return self.of(self.mesh.nodes[node])

    def of(self, point):
        x, y = map(float, point)
        return self.shift + (x - self.xs[0]) * self.scale, self.top + ABOVE + (self.ys[1] - y) * self.scale

    def side(self, side):
        """The two ends of a side, its direction, and the direction outward."""
        a, b = self.at(side[0]), self.at(side[1])
        along = unit(a, b)
        return a, b, along, (-along[1], along[0])

    def element(self, element):
        return [self.at(node) for node in rows.corners_of(element)]

    def elements_at(self, point):
        """In how many elements a point of the page is."""
        return sum(within(shape, point) for shape in self.shapes)

    def covered(self, point):
        return self.elements_at(point) > 0

    def shares_its_place(self, node):
        return self.mesh.nodes[node] in self.shared


def within(corners, point):
    """Whether a point is in an element, whose corners turn to the right on the page."""
    return all(rows.turn(a, b, point) <= 0 for a, b in zip(corners, corners[1:] + corners[:1]))


def ticks(low, high, scale):
    """Whole coordinates at even distances, 1, 2 or 5 times a power of ten, far enough apart for their numbers."""
    steps = (factor * 10**power for power in range(5) for factor in (1, 2, 5))
    step = next(step for step in steps if step * scale >= TICK_APART)
    return range(-(-low // step) * step, high + 1, step)


def axes(page):
    """Coordinates below the mesh and to its left."""
    (left, right), (low, high) = page.xs, page.ys
    (x0, y0), (x1, y1) = page.of((left, low)), page.of((right, high))
    x, y = x0 - AXIS_AWAY, y0 + AXIS_AWAY
    yield line((x0, y), (x1, y), AXIS)
    yield line((x, y0), (x, y1), AXIS)
    for tick in ticks(left, right, page.scale):
        at, _ = page.of((tick, low))
        yield line((at, y), (at, y + 4), AXIS)
        yield label((at, y + 12), str(tick), 10, AXIS)
    for tick in ticks(low, high, page.scale):
        _, at = page.of((left, tick))
        yield line((x - 4, at), (x, at), AXIS)
        yield label((x - 7, at), str(tick), 10, AXIS, "end")
    yield label((x1 + 14, y), "x", 11, AXIS, font_style="italic")
    yield label((x, y1 - 12), "y", 11, AXIS, font_style="italic")
