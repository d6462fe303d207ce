"""The numbers in a picture, each where it is read and belongs to its own thing: of nodes in the corners at them, of
elements inside with their soil, of edges beside them, of jumps on them."""

import math
from collections import namedtuple

import rows
from page import within
from svg import between, label, middle, moved, unit

SIZE, SMALL = 11, 10
NODE, ELEMENT, SOIL, JUMP = "#000", "#5a5a78", "#7a7a7a", "#000"
# Labels nearer than this, to the side or up and down, read as one.
APART = 7, 3
# An element that is so near outside a side faces it.
FACING = 20, 40, 60, 80, 100

# A label at a place: its lines, one below the other, each a list of pieces (words, size, style).
Choice = namedtuple("Choice", "place lines")


def width_of(pieces):
    """How wide a line is, by the widths of digits."""
    return sum((0.7 if "font_weight" in style else 0.64) * size * len(words) for words, size, style in pieces)


def box_of(choice):
    """(left, top, right, bottom) of a label."""
    (x, y), across = choice.place, max(map(width_of, choice.lines)) / 2
    up = sum(max(size for _, size, _ in pieces) for pieces in choice.lines) / 2
    return x - across, y - up, x + across, y + up


def wider(box, across, up):
    return box[0] - across, box[1] - up, box[2] + across, box[3] + up


def common(a, b):
    """The area that two boxes share."""
    across, up = min(a[2], b[2]) - max(a[0], b[0]), min(a[3], b[3]) - max(a[1], b[1])
    return max(across, 0) * max(up, 0)


def drawn(choice):
    """The pieces of each line side by side, lines one below the other."""
    _, y, _, _ = box_of(choice)
    for pieces in choice.lines:
        height = max(size for _, size, _ in pieces)
        x = choice.place[0] - width_of(pieces) / 2
        for words, size, style in pieces:
            across = width_of([(words, size, style)])
            yield label((x + across / 2, y + height / 2), words, size, **style)
            x += across
        y += height


class Labels:
    """Each label takes the first of its choices that no earlier one is near, else the one that covers least of them."""

    def __init__(self):
        self.boxes, self.drawn, self.box_of_node = [], [], {}

    def keep_free(self, box):
        self.boxes.append(box)

    def put(self, choices):
        boxes = [wider(box_of(choice), *APART) for choice in choices]
        covered = [sum(common(box, other) for other in self.boxes) for box in boxes]
        k = covered.index(min(covered))
        self.boxes.append(box_of(choices[k]))
        self.drawn += drawn(choices[k])
        return self.boxes[-1]


def plain(words, size, colour, **style):
    """The lines of a label of one piece."""
    return [[(words, size, {"colour": colour, **style})]]


# Elements


def inner_point(corners):
    """The middle of an element, for a triangle that of the circle inside."""
    if len(corners) == 4:
        return middle(corners)
    a, b, c = corners
    weights = math.dist(b, c), math.dist(c, a), math.dist(a, b)
    return tuple(sum(w * p[axis] for w, p in zip(weights, corners)) / sum(weights) for axis in (0, 1))


def element_lines(number, element, several_soils):
    """The ways to write an element's number: with its soil beside it or below it, where there are several."""
    style = {"colour": ELEMENT, "font_style": "italic", "font_weight": "bold"}
    piece = (str(number + 1), SIZE, style)
    if not several_soils or element.soil < 0:
        return [[[piece]]]
    soil = (f"s{element.soil + 1}", SMALL, {"colour": SOIL})
    space = (" ", SMALL / 2, {"colour": SOIL})
    return [[[piece, space, soil]], [[piece], [soil]]]


def outside(corners, box):
    """How many corners of a box lie outside an element."""
    left, top, right, bottom = wider(box, 1, -2)
    return sum(not within(corners, point) for point in ((left, top), (right, top), (left, bottom), (right, bottom)))


def element_choices(page, number, several_soils):
    """In the middle, then towards corners and sides; first those whole inside, and in no other element."""
    element = page.mesh.elements[number]
    corners = page.element(element)
    centre, ends = inner_point(corners), corners + [between(a, b, 0.5) for a, b in zip(corners, corners[1:])]
    places = [centre, *(between(centre, end, part) for part in (0.25, 0.45, 0.65) for end in ends)]
    ways = element_lines(number, element, several_soils)
    choices = [Choice(place, lines) for place in places for lines in ways]
    return sorted(choices, key=lambda c: (outside(corners, box_of(c)), page.elements_at(c.place)))


def element_labels(page, labels):
    several = len({element.soil for element in page.mesh.elements}) > 1
    for number in range(len(page.mesh.elements)):
        labels.put(element_choices(page, number, several))


# Sides


def edge_groups(mesh):
    """Edges with the same fixing and loads, by letters in the order of their first edge."""
    groups = {}
    for number, edge in enumerate(mesh.edges):
        groups.setdefault((edge.fixed, edge.dead, edge.live), []).append(number)
    return [(chr(65 + k % 26) * (1 + k // 26), numbers) for k, numbers in enumerate(groups.values())]


def clear_of(outward, lines):
    """How far from a side, or an arrow's end, the middle of a label is that doesn't touch it."""
    left, top, right, bottom = box_of(Choice((0, 0), lines))
    return 6 + abs(outward[0]) * (right - left) / 2 + abs(outward[1]) * (bottom - top) / 2


def edge_label_places(page, edge, near, reach):
    """Outside, beyond the arrows or between them, where no element lies or faces the side; else inside, or outside
    nearer to the side than to another element."""
    a, b, _, outward = page.side((edge.start, edge.end))
    outside = [(0.5, near + reach), (0.35, near), (0.65, near)]
    inside = [(part, -near - more) for more in (0, 9) for part in (0.5, 0.35, 0.65)]

    def place(part, away):
        return moved(between(a, b, part), outward, away)

    def clear(part, *distances):
        return not any(page.covered(place(part, away)) for away in distances)

    faced = not all(clear(part, *FACING) for part, _ in outside)
    there = [place(part, away) for part, away in outside if clear(part, away, away + near)]
    within = [place(part, away) for part, away in inside]
    return within + there if faced else there + within


def edge_labels(page, labels, reach, colour_of):
    """`reach` tells how far from its side an edge's arrows reach."""
    letter_of = {number: letter for letter, numbers in edge_groups(page.mesh) for number in numbers}
    for number, edge in enumerate(page.mesh.edges):
        outward = page.side((edge.start, edge.end))[3]
        lines = plain(f"{number + 1}{letter_of[number]}", SIZE, colour_of(edge))
        places = edge_label_places(page, edge, clear_of(outward, lines), reach(edge))
        labels.put([Choice(place, lines) for place in places])


def question_labels(page, labels, warnings, colour):
    """A question mark at each side whose line may be forgotten."""
    for warning in warnings:
        if warning["question"]:
            a, b, _, outward = page.side([node - 1 for node in warning["side"]])
            places = [moved(between(a, b, part), outward, away) for away in (20, -16) for part in (0.5, 0.35, 0.65)]
            labels.put([Choice(place, plain("?", 16, colour, font_weight="bold")) for place in places])


def jump_labels(page, labels):
    for number, jump in enumerate(page.mesh.jumps):
        places = [between(page.at(jump.start), page.at(jump.end), part) for part in (0.5, 0.6, 0.4)]
        lines = plain(f"j{number + 1}", SIZE, JUMP, font_weight="bold")
        labels.put([Choice(place, lines) for place in places])


# Nodes


def corner_views(page, node):
    """(angle, direction) of each element corner at a node: how wide it is, and where its middle points."""
    for element in page.mesh.elements:
        nodes = rows.corners_of(element)
        if node in nodes:
            k = nodes.index(node)
            to_next = unit(page.at(node), page.at(nodes[(k + 1) % len(nodes)]))
            to_last = unit(page.at(node), page.at(nodes[k - 1]))
            cosine = to_next[0] * to_last[0] + to_next[1] * to_last[1]
            yield math.acos(max(-1.0, min(1.0, cosine))), unit((0, 0), moved(to_next, to_last, 1))


def node_label_places(page, node):
    """In the corners at the node, the widest and uppermost first, so far in that no side is near."""
    views = sorted(corner_views(page, node), key=lambda view: (-round(view[0], 1), view[1][1] - view[1][0]))
    least = 14 if page.shares_its_place(node) else 11  # a number may have a ring there
    for farther in (0, 7, 14, 22, 32, 44):
        for angle, direction in views or [(math.pi, (0.7, -0.7))]:
            away = min(max(least / max(math.sin(angle / 2), 0.1), 16), 70)
            yield moved(page.at(node), direction, away + farther)


def node_labels(page, labels):
    for node in range(len(page.mesh.nodes)):
        lines = plain(str(node + 1), SIZE, NODE)
        choices = [Choice(place, lines) for place in node_label_places(page, node)]
        labels.box_of_node[node] = labels.put(choices)
