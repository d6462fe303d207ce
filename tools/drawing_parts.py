"""What is drawn of a mesh: elements with their soils and forces, edges with their loads, joints, sides without a line,
nodes."""

import math

import unlined_sides
from svg import arrow, between, circle, line, middle, moved, polygon, tag, unit

SOIL_COLOURS = "#f5e6c8", "#dbe7f3", "#e3f0d8", "#f3dcdc", "#e8e0f0", "#fdf3b8", "#d8efec", "#ececec"
EDGE_COLOURS = {"normal": "#1f5fbf", "shear": "#8a3fb0", "loaded": "#202020", "free": "#2a8a2a"}
DASHES = {"normal": "9 4", "shear": "3 3", "loaded": "none", "free": "none"}
LIVE, DEAD, ANYTHING = "#cc1f1f", "#4a4a4a", "#9a5b13"


# Elements


def soil_fill(soil):
    return "#ffffff" if soil < 0 else f"url(#soil{soil + 1})"


def soil_patterns(mesh):
    """A pattern for each soil: a colour, dots from the ninth on, level lines for beds."""
    for number, soil in enumerate(mesh.soils):
        parts = [tag("rect", width=12, height=12, fill=SOIL_COLOURS[number % len(SOIL_COLOURS)])]
        if number >= len(SOIL_COLOURS):
            parts.append(circle((6, 6), 1.2, fill="#8a8a8a"))
        if soil.kind:
            parts.append(line((0, 3), (12, 3), "#8a8a8a", 0.6))
        size = {"width": 12, "height": 12, "patternUnits": "userSpaceOnUse"}
        yield tag("pattern", "".join(parts), id=f"soil{number + 1}", **size)


def elements(page):
    for element in page.mesh.elements:
        corners = page.element(element)
        yield polygon(corners, fill=soil_fill(element.soil), stroke="#707070", stroke_width=0.8)


def room_around(centre, corners):
    """The distance from a point to the nearest side."""
    distances = []
    for a, b in zip(corners, corners[1:] + corners[:1]):
        along = unit(a, b)
        distances.append(abs((centre[0] - a[0]) * along[1] - (centre[1] - a[1]) * along[0]))
    return min(distances)


def body_arrows(soil, centre):
    """A soil's dead and live force at the middle of an element."""
    for force, colour, aside in ((soil.dead, DEAD, -4), (soil.live, LIVE, 4)):
        if any(force):
            along = unit((0, 0), (force[0], -force[1]))
            start = moved(moved(centre, along, 8), (-along[1], along[0]), aside)
            yield arrow(start, moved(start, along, 16), colour)


def forces(page):
    """The forces, in each element that has room for them."""
    for element in page.mesh.elements:
        corners = page.element(element)
        if element.soil >= 0 and room_around(middle(corners), corners) > 22:
            yield from body_arrows(page.mesh.soils[element.soil], middle(corners))


# Sides


def edge_kind(edge):
    if edge.fixed != 3:
        return "normal" if edge.fixed == 1 else "shear"
    return "loaded" if any(edge.dead + edge.live) else "free"


def asked(edge, part, load):
    """A load that the edge's line asks; a part that isn't fixed asks none."""
    return load[part] if edge.fixed & (1 << part) else 0


def beyond_shear(edge):
    """How far from the side the normal arrows end: beyond the shear's, where there are any."""
    return 16 if asked(edge, 1, edge.live) or asked(edge, 1, edge.dead) else 5


def normal_arrows(edge, a, b, outward):
    """Three arrows of a load; of both, two live ones with a dead one between."""
    near = beyond_shear(edge)
    live, dead = asked(edge, 0, edge.live), asked(edge, 0, edge.dead)
    live_parts, dead_parts = ((0.25, 0.75), (0.5,)) if live and dead else ((0.2, 0.5, 0.8),) * 2
    for load, colour, parts in ((live, LIVE, live_parts), (dead, DEAD, dead_parts)):
        for part in parts if load else ():
            ends = moved(between(a, b, part), outward, near), moved(between(a, b, part), outward, near + 22)
            yield arrow(*(ends if load > 0 else ends[::-1]), colour)


def shear_arrows(edge, a, b, outward):
    for load, colour, away in ((edge.live, LIVE, 7), (edge.dead, DEAD, 12)):
        shear = asked(edge, 1, load)
        if shear:
            ends = moved(between(a, b, 0.15), outward, away), moved(between(a, b, 0.85), outward, away)
            yield arrow(*(ends if shear > 0 else ends[::-1]), colour)


def reach(edge):
    """How far from the side its arrows reach."""
    if any(asked(edge, 0, load) for load in (edge.live, edge.dead)):
        return beyond_shear(edge) + 22
    return 12 if beyond_shear(edge) > 5 else 0


def edge_arrows(page, edge):
    a, b, _, outward = page.side((edge.start, edge.end))
    return [*normal_arrows(edge, a, b, outward), *shear_arrows(edge, a, b, outward)]


def edges(page):
    for edge in page.mesh.edges:
        a, b, _, outward = page.side((edge.start, edge.end))
        kind = edge_kind(edge)
        ends = moved(a, outward, 1.5), moved(b, outward, 1.5)
        yield line(*ends, EDGE_COLOURS[kind], 3.5, stroke_dasharray=DASHES[kind])
        yield from edge_arrows(page, edge)


def hatched(a, b, outward, along):
    """A side that may carry anything: as a support is drawn."""
    yield line(a, b, ANYTHING, 2.5)
    length = math.dist(a, b)
    for k in range(max(int(length // 8), 1)):
        foot = moved(a, along, min(4 + 8 * k, length))
        yield line(foot, moved(moved(foot, outward, 8), along, -5), ANYTHING, 1)


def unlined(page):
    for _, side in unlined_sides.unlined_sides(page.mesh):
        a, b, along, outward = page.side(side)
        yield from hatched(a, b, outward, along)


def doubled(a, b):
    return line(a, b, "#000", 6) + line(a, b, "#fff", 3)


def jumps(page):
    for jump in page.mesh.jumps:
        yield doubled(page.at(jump.start), page.at(jump.end))


# Nodes


def nodes(page):
    for node in range(len(page.mesh.nodes)):
        yield circle(page.at(node), 2.4, fill="#000")
