"""A picture of a mesh and its verdict as SVG: numbers, soils, loads, jumps, sides that may carry anything, the places
of the refusal and the nodes with open rows."""

import drawing_parts as parts
import labels
import legend
import marks
from page import NARROWEST, Page, axes
from svg import tag, whole


def without_a_mesh(names, told):
    """Where no line of the mesh can be read, the title alone."""
    lines = [*legend.title_lines(names, told, NARROWEST), "there is no mesh to draw: its lines don't pass"]
    return whole(NARROWEST, 40 + legend.LINE * len(lines), legend.titles(lines))


def placed_labels(page, told):
    """Each label where it is read, those with the fewest places first."""
    placed = labels.Labels()
    for reason in told["reasons"][:1]:
        if "point" in reason:
            x, y = marks.point_of(page, reason)
            placed.keep_free((x - 8, y - 8, x + 8, y + 8))
    labels.element_labels(page, placed)
    labels.jump_labels(page, placed)
    labels.edge_labels(page, placed, parts.reach, lambda edge: parts.EDGE_COLOURS[parts.edge_kind(edge)])
    labels.question_labels(page, placed, told["warnings"], parts.ANYTHING)
    labels.node_labels(page, placed)
    return placed


def picture(names, mesh, told):
    """The whole drawing; names: the files'."""
    if mesh is None:
        return without_a_mesh(names, told)
    width = Page(mesh, 0).width
    lines = legend.title_lines(names, told, width)
    page = Page(mesh, 10 + legend.LINE * len(lines))
    placed = placed_labels(page, told)
    drawn = [tag("defs", "".join(parts.soil_patterns(mesh))), *legend.titles(lines), *axes(page)]
    for of in (parts.elements, parts.forces, parts.unlined, parts.jumps, parts.edges, parts.nodes):
        drawn += of(page)
    found = marks.refusal_marks(page, placed, told)
    drawn += [mark for _, _, mark in found]
    drawn += [*marks.open_row_rings(page, placed, told), *placed.drawn]
    below, end = legend.legend(legend.items(page, found, told), page.bottom, width)
    return whole(width, end + legend.LINE, drawn + below)
