"""The words of a picture: its title with the verdict, and its legend, which has each thing that is drawn."""

import math

import drawing_parts as parts
import marks
import unlined_sides
from labels import edge_groups
from svg import arrow, circle, label, line, short, tag

LINE = 18
TITLE, WORDS = 14, 12
# The width of a letter in the title and the legend.
TITLE_LETTER, LETTER = 7.3, 6.7


def ranges(numbers):
    """Numbers from 0, as words that count from 1."""
    runs = []
    for number in numbers:
        if runs and runs[-1][1] == number:
            runs[-1][1] = number + 1
        else:
            runs.append([number + 1, number + 1])
    return ", ".join(str(a) if a == b else f"{a}, {b}" if b == a + 1 else f"{a} to {b}" for a, b in runs)


FIXED_WORDS = {
    1: "normal fixed, shear may be anything",
    2: "shear fixed, normal may be anything",
    3: "normal and shear fixed",
}


def edge_group_words(mesh, letter, numbers):
    edge = mesh.edges[numbers[0]]
    words = f"{letter}: edge{'s' if len(numbers) > 1 else ''} {ranges(numbers)}: {FIXED_WORDS[edge.fixed]}"
    told = []
    for name, load in (("live", edge.live), ("dead", edge.dead)):
        for part, part_name in enumerate(("normal", "shear")):
            if parts.asked(edge, part, load):
                told.append(f"{name} {part_name} {load[part]}")
    return words + ("; " + ", ".join(told) if told else "; no load")


def soil_words(number, soil):
    strength = f"cohesion {soil.cohesion}"
    if soil.kind:
        strength = f"stronger one way, cohesion {soil.cohesion} along and {soil.cv} across its level beds"
    words = f"soil {number + 1}: {strength}"
    words += f", friction {math.degrees(math.asin(soil.p / soil.h)):.1f} degrees" if soil.p else ", no friction"
    forces = [f"{name} force {force}" for name, force in (("dead", soil.dead), ("live", soil.live)) if any(force)]
    return words + "".join(f", {force}" for force in forces)


def swatch(soil):
    return tag("rect", x=2, width=30, height=12, fill=parts.soil_fill(soil), stroke="#707070")


def soil_items(mesh):
    used = sorted({element.soil for element in mesh.elements if element.soil >= 0})
    for number in used:
        short_name = f"s{number + 1}: " if len(used) > 1 else ""
        yield swatch(number), short_name + soil_words(number, mesh.soils[number])
    if any(element.soil < 0 for element in mesh.elements):
        yield swatch(-1), "soil of the table, which is refused"


def side_items(mesh, told):
    a, b = (2, 6), (32, 6)
    for letter, numbers in edge_groups(mesh):
        kind = parts.edge_kind(mesh.edges[numbers[0]])
        drawn = line(a, b, parts.EDGE_COLOURS[kind], 3.5, stroke_dasharray=parts.DASHES[kind])
        yield drawn, edge_group_words(mesh, letter, numbers)
    if mesh.jumps:
        names = "j1" if len(mesh.jumps) == 1 else f"j1 to j{len(mesh.jumps)}"
        yield parts.doubled(a, b), f"{names}: stress may jump here, normal and shear agree"
    if unlined_sides.unlined_sides(mesh):
        asked = "; with a ?: is its line forgotten?" if any(side["question"] for side in told["warnings"]) else ""
        yield "".join(parts.hatched(b, a, (0, -1), (-1, 0))), f"no edge line: this side may carry anything{asked}"


def load_items(mesh):
    live, dead = ("live", parts.LIVE, "live load, times the load factor"), ("dead", parts.DEAD, "dead load")
    for name, colour, words in (live, dead):
        on_edges = any(parts.asked(edge, part, getattr(edge, name)) for edge in mesh.edges for part in (0, 1))
        if on_edges or any(any(getattr(soil, name)) for soil in mesh.soils):
            yield arrow((2, 6), (32, 6), colour), words


def number_items(mesh):
    soil = " with their soil" if len({element.soil for element in mesh.elements}) > 1 else ""
    edges = "; beside a side: an edge's number and letter" if mesh.edges else ""
    yield circle((17, 6), 2.4, fill="#000"), f"upright: node numbers; slanted: element numbers{soil}{edges}"


def items(page, found, told):
    """(what is drawn, words) line by line; each drawing is for a box of 34 by 12 pixels at (0, 0)."""
    mesh = page.mesh
    yield from soil_items(mesh)
    yield from side_items(mesh, told)
    yield from load_items(mesh)
    yield from marks.meanings(page, found, told)
    yield from number_items(mesh)


def legend(drawn_items, top, width):
    """The legend's drawing and where it ends; long words go on in a further line."""
    drawn, y = [], top
    for sample, words in drawn_items:
        drawn.append(tag("g", sample, transform=f"translate(20 {short(y)})"))
        for part in wrapped(words, int((width - 80) / LETTER)):
            drawn.append(label((62, y + 6), part, WORDS, anchor="start"))
            y += LINE
    return drawn, y


def wrapped(words, most):
    """Lines of at most so many characters, broken at spaces."""
    lines = [""]
    for word in words.split():
        if lines[-1] and len(lines[-1]) + 1 + len(word) > most:
            lines.append("")
        lines[-1] = f"{lines[-1]} {word}".strip()
    return lines


# The title


def counted(number, what):
    return f"{number} {what}{'' if number == 1 else 's'}"


def load_words(told):
    """What an accepted claim says: the carried load, the limit and the open rows."""
    _, count, carried, limit = told["report"].split()
    loads = ("carried", carried), ("limit", limit)
    words = [f"{name} {'not told' if load == 'none' else load}" for name, load in loads]
    if count != "none":
        nodes = len({row["node"] for row in told["open_rows"]})
        words.append(counted(int(count), "open row") + (f" at {counted(nodes, 'node')}" if nodes else ""))
    return ", ".join(words)


def reason_words(told):
    """The refusal's own place, and where there are more how many and the worst."""
    first = [reason["what"] for reason in told["reasons"][:1]]
    yield from first
    if len(told["reasons"]) > 1:
        yield f"and {counted(len(told['reasons']) - 1, 'more reason')}"
    yield from (part["what"].replace(first[0], "this one") for part in told["summary"])


def verdict_lines(names, told):
    """The picture's title, and what the verdict says."""
    files = names[0] + "".join(f"{joint}{name}" for joint, name in zip((" with ", " and "), names[1:]))
    if told["number"] == 0:
        yield f"{files}: accepted"
        yield load_words(told)
    else:
        yield f"{files}: refused with {told['number']} at {told['kind_of_place']} {told['place']}"
    if told["archive"] is None:
        yield "number and place are this tool's own: no archive is here"
    if told["differs"]:
        yield "THE ARCHIVE SAYS SOMETHING ELSE"
    yield from reason_words(told)


def title_lines(names, told, width):
    return [part for words in verdict_lines(names, told) for part in wrapped(words, int((width - 40) / TITLE_LETTER))]


def titles(lines):
    return [label((20, 24 + LINE * k), words, 13 if k else TITLE, anchor="start") for k, words in enumerate(lines)]
