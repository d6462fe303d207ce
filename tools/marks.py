"""The marks in a picture: where a mesh or a claim is refused, where else it fails, and the nodes with open rows."""

import mesh_reasons
from labels import wider
from svg import frame, label, line, moved, polygon, ring

REFUSED, ALSO, OPEN = "#e00000", "#ff8c00", "#0060e0"
DASHED_AREA, DASHED_HEIGHT = "7 4", "8 4"


def node_ring(page, labels, node, radius, colour, width):
    """Around a node; where several are at one place around its number, which stands in its own corner."""
    if page.shares_its_place(node):
        return frame(wider(labels.box_of_node[node], 4, 2), colour, width)
    return ring(page.at(node), radius, colour, width)


def area(corners, colour):
    return polygon(corners, fill=colour, fill_opacity=0.18, stroke=colour, stroke_width=3)


def lower_area(corners, colour):
    return polygon(corners, fill="none", stroke=colour, stroke_width=3, stroke_dasharray=DASHED_AREA)


def thick(a, b, colour):
    return line(a, b, colour, 6, stroke_opacity=0.6, stroke_linecap="round")


def cross(centre, colour):
    return "".join(line(moved(centre, way, -6), moved(centre, way, 6), colour, 3) for way in ((1, 1), (1, -1)))


def height_line(a, b, colour):
    return line(a, b, colour, 2, stroke_dasharray=DASHED_HEIGHT)


def fraction(text):
    top, _, bottom = text.partition("/")
    return int(top) / int(bottom or 1)


def point_of(page, reason):
    """The point of a 47, on the page."""
    return page.of(map(fraction, reason["point"]))


def height_mark(page, quarters, colour):
    _, y = page.of((0, quarters / 4))
    words = label((page.width - 10, y - 9), f"height {mesh_reasons.quarters(quarters)}", 11, colour, "end")
    return height_line((8, y), (page.width - 8, y), colour) + words


def side_marks(page, reason, colour):
    """Sides that are named, and those of an edge and of a jump."""
    mesh, sides = page.mesh, []
    if "side" in reason:
        sides.append([node - 1 for node in reason["side"]])
    if "edge" in reason:
        sides.append(mesh.edges[reason["edge"] - 1][:2])
    if "jump" in reason:
        jump = mesh.jumps[reason["jump"] - 1]
        sides += [(jump.start, jump.end), (jump.facing_start, jump.facing_end)]
    return [thick(page.at(a), page.at(b), colour) for a, b in sides]


def reason_marks(page, labels, reason, colour):
    """(kind of mark, drawing) of all that a reason is about."""
    elements = page.mesh.elements
    if "lower_element" in reason:
        yield "lower", lower_area(page.element(elements[reason["lower_element"] - 1]), colour)
    if "element" in reason:
        yield "area", area(page.element(elements[reason["element"] - 1]), colour)
    yield from (("side", drawn) for drawn in side_marks(page, reason, colour))
    for key in ("node", "facing_node"):
        if key in reason:
            yield "node", node_ring(page, labels, reason[key] - 1, 8.5, colour, 2.6)
    if "point" in reason:
        yield "cross", cross(point_of(page, reason), colour)
    for key in ("lowest_quarter", "lowest_shared_quarter"):
        if key in reason:
            yield "height", height_mark(page, reason[key], colour)


def refusal_marks(page, labels, told):
    """(kind, colour, drawing) of each mark once, the refusal's own place last, over the others."""
    marks = [(reason, ALSO) for reason in told["reasons"][1:]] + [(reason, REFUSED) for reason in told["reasons"][:1]]
    found = []
    for reason, colour in marks:
        found += [(kind, colour, drawn) for kind, drawn in reason_marks(page, labels, reason, colour)]
    return list(dict.fromkeys(found))


def open_row_rings(page, labels, told):
    for node in sorted({row["node"] for row in told["open_rows"]}):
        yield node_ring(page, labels, node - 1, 6.5, OPEN, 1.8)


# What they mean, for the legend: each drawing is for a box of 34 by 12 pixels at (0, 0)

SAMPLES = {
    "area": lambda colour: area([(2, 0), (32, 0), (32, 12), (2, 12)], colour),
    "lower": lambda colour: lower_area([(2, 0), (32, 0), (32, 12), (2, 12)], colour),
    "side": lambda colour: thick((5, 6), (29, 6), colour),
    "node": lambda colour: ring((17, 6), 6, colour, 2.6),
    "cross": lambda colour: cross((17, 6), colour),
    "height": lambda colour: height_line((2, 6), (32, 6), colour),
}
REFUSED_WORDS = {
    "area": "the refused place: this element",
    "lower": "the lower element that it lies on, or has a directed side of",
    "side": "the refused place: this side",
    "node": "the refused place: this node",
    "cross": "a point inside both",
    "height": "the refused place: this height",
}
ALSO_WORDS = {
    "area": "also fails: these elements",
    "lower": "the lower elements of these",
    "side": "also fails: these sides",
    "node": "also fails: these nodes",
    "cross": "points inside two elements",
    "height": "also fails: these heights",
}


def meanings(page, marks, told):
    """(drawing, words) of each kind of mark that is there."""
    ringed = "; where nodes share a place, the number is ringed" if page.shared else ""
    for colour, words in ((REFUSED, REFUSED_WORDS), (ALSO, ALSO_WORDS)):
        for kind in words:
            if any(mark[:2] == (kind, colour) for mark in marks):
                yield SAMPLES[kind](colour), words[kind] + (ringed if kind == "node" else "")
    if told["open_rows"]:
        yield ring((17, 6), 6, OPEN, 1.8), "a node with open rows" + ringed
