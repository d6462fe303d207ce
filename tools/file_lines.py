"""The lines of the three files: what each line is, how wide, and what its columns hold, as far as the headers tell."""

from collections import namedtuple

import rows

# what: what a line of it is; names: its columns; limits: what they may hold; count: how many lines there are.
Section = namedtuple("Section", "what names limits count")
# index: which of the section's lines, from 1; start: the line's first byte, from 0.
Line = namedtuple("Line", "section index start")

HEADER = "nodes", "elements", "soils", "edges", "sides", "jumps"
SOIL = "p", "q", "h", "cohesion", "dead force x", "dead force y", "live force x", "live force y", "kind", "cv"
ELEMENT = "first node", "second node", "third node", "fourth node", "soil"
EDGE = "from", "to", "fixed", "dead normal", "dead shear", "live normal", "live shear"
JUMP = "from", "to", "facing from", "facing to"
LAYER = "bottom", "top", "soil"
CLAIM_HEADER = "field there", "multipliers there", "n", "l"
FOUR_ROWS = "normal at from", "shear at from", "normal at to", "shear at to"

MESH_START = Section("the header", HEADER, rows.HEADER, 1)
CLAIM_START = Section("the header", CLAIM_HEADER, rows.CLAIM_HEADER, 1)


def width(section):
    """The bytes of a line, its byte 10 counted."""
    return rows.WIDTH * len(section.names) + 1


def header_numbers(data, section):
    """The numbers of line 1, or None where it is refused."""
    try:
        return rows.take_line(rows.FileLines(data, 1), section.limits, 2)
    except rows.Refused:
        return None


def mesh_sections(data):
    """The sections of a mesh file, as far as its header tells them."""
    numbers = header_numbers(data, MESH_START)
    if numbers is None:
        return [MESH_START]
    nodes, elements, soils, edges, _, jumps = numbers
    return [
        MESH_START,
        Section("soil", SOIL, rows.SOIL_LINE, soils),
        Section("node", ("x", "y"), rows.NODE_LINE, nodes),
        Section("element", ELEMENT, rows.ELEMENT_LINE, elements),
        Section("edge", EDGE, rows.EDGE_LINE, edges),
        Section("jump", JUMP, rows.JUMP_LINE, jumps),
    ]


def table_sections(data):
    """A table has as many lines as it holds, 32 at most."""
    layer = Section("layer", LAYER, rows.LAYER_LINE, 0)
    return [layer._replace(count=min(-(-len(data) // width(layer)), rows.MOST_LAYERS))]


def claim_sections(data, mesh):
    """The sections of a claim file on a mesh, as far as its header tells them."""
    numbers = header_numbers(data, CLAIM_START)
    if numbers is None:
        return [CLAIM_START]
    sections = [CLAIM_START]
    if numbers[0]:
        sections.append(Section("the stresses of node", ("sx", "sy", "t"), [rows.STRESS] * 3, len(mesh.nodes)))
    if numbers[1]:
        sides = tuple(f"side {side}" for side in range(1, mesh.sides + 1))
        names = ("balance x", "balance y"), FOUR_ROWS, FOUR_ROWS, sides
        for what, names, group in zip(("element", "edge", "jump", "pair"), names, rows.multiplier_groups(mesh)):
            count, columns, limits = group
            sections.append(Section(f"the multipliers of {what}", names, [limits] * columns, count))
    return sections


def line_at(sections, line, first):
    """The line of this number, or None where it comes after the last."""
    start, before = 0, first
    for section in sections:
        if line < before + section.count:
            return Line(section, line - before + 1, start + (line - before) * width(section))
        before += section.count
        start += section.count * width(section)
    return None


def length(sections):
    return sum(section.count * width(section) for section in sections)


def title(line):
    section, index, _ = line
    return section.what if section.what == "the header" else f"{section.what} {index}"


def physical_line(data, start):
    """The bytes from a line's start to its byte 10, that counted; it may be shorter or longer than it should be."""
    end = data.find(b"\n", start)
    return data[start:] if end < 0 else data[start : end + 1]
