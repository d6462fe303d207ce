"""Why a mesh whose lines pass is refused as a whole: 46, 45, 5, 6, 7, 47, 8, 44 and 42, each everywhere that it
applies, the refusal's own place first."""

from fractions import Fraction

import rows


def node_words(mesh, node):
    return f"node {node + 1} at ({mesh.nodes[node][0]}, {mesh.nodes[node][1]})"


def side_words(mesh, side):
    return f"the side from {node_words(mesh, side[0])} to {node_words(mesh, side[1])}"


def element_words(mesh, number):
    nodes = rows.corners_of(mesh.elements[number])
    return f"element {number + 1} (nodes {', '.join(str(node + 1) for node in nodes)})"


def quarters(height):
    """A height in quarters as a number of units."""
    return str(height // 4) + {0: "", 1: ".25", 2: ".5", 3: ".75"}[height % 4]


def layer_words(number, layer):
    line = rows.FIRST_LAYER_LINE + number
    return f"line {line}: from {layer.bottom} up to below {layer.top}, soil {layer.soil + 1}"


def turned_layer_reasons(layers):
    """46 where a layer's top isn't above its bottom."""
    for number, layer in enumerate(layers):
        if layer.top <= layer.bottom:
            line = rows.FIRST_LAYER_LINE + number
            yield {
                "what": f"the table, line {line}: its top {layer.top} isn't above its bottom {layer.bottom}",
                "line": line,
                "words": ["a layer's line is its bottom, its top and its soil"],
            }


def shared_layer_reasons(layers, heights):
    """46 where a layer shares heights of the mesh with an earlier one."""
    for number, layer in enumerate(layers):
        for lower, other in enumerate(layers[:number]):
            shared = [h for h in heights if 4 * max(layer.bottom, other.bottom) <= h < 4 * min(layer.top, other.top)]
            if shared:
                line = rows.FIRST_LAYER_LINE + number
                both = f"line {line} shares heights of the mesh with line {rows.FIRST_LAYER_LINE + lower}"
                yield {
                    "what": f"the table, {both}: {quarters(shared[0])} to {quarters(shared[-1])}",
                    "line": line,
                    "lowest_shared_quarter": shared[0],
                    "words": [layer_words(lower, other), layer_words(number, layer)],
                }


def gap_reasons(layers, heights):
    """45: each run of heights that no layer has."""
    without = [h for h in heights if not any(4 * layer.bottom <= h < 4 * layer.top for layer in layers)]
    runs = []
    for height in without:
        if runs and runs[-1][1] == height - 1:
            runs[-1][1] = height
        else:
            runs.append([height, height])
    for low, high in runs:
        span = f"height {quarters(low)}" if low == high else f"the heights {quarters(low)} to {quarters(high)}"
        quarter_words = f"{low} quarters" if low == high else f"{low} to {high} quarters"
        yield {
            "what": f"the table has no layer at {span} ({quarter_words} of a unit)",
            "lowest_quarter": low,
            "highest_quarter": high,
            "words": [
                f"the mesh reaches from {quarters(heights[0])} to {quarters(heights[-1])}, both counted; a layer has"
                " its bottom and not its top",
                *(layer_words(number, layer) for number, layer in enumerate(layers)),
            ],
        }


def turn_reasons(mesh):
    """5: each corner without a left turn."""
    for number, element in enumerate(mesh.elements):
        turns, nodes = rows.turns(mesh, element), rows.corners_of(element)
        if min(turns) > 0:
            continue
        words = [
            f"at {node_words(mesh, node)}: twice the area of the corner's triangle is {turn}"
            + ("" if turn > 0 else ", not above 0: " + ("a right turn" if turn < 0 else "no turn"))
            for node, turn in zip(nodes, turns)
        ]
        if max(turns) < 0:
            words.append("every corner turns right: the nodes go clockwise, and counterclockwise is asked")
        elif len(set(nodes)) < len(nodes):
            words.append("a node is repeated; only the third may be, as the fourth, which makes a triangle")
        yield {
            "what": f"{element_words(mesh, number)} isn't a left turn at all {len(nodes)} corners",
            "element": number + 1,
            "turns": turns,
            "words": words,
        }


def shared_side_reasons(mesh):
    """6: each directed side that a lower element has."""
    owner = {}
    for number, element in enumerate(mesh.elements):
        for a, b in rows.sides_of(element):
            if (a, b) in owner:
                lower = owner[a, b]
                yield {
                    "what": f"element {number + 1} has a directed side that element {lower + 1} has: from"
                    f" {node_words(mesh, a)} to {node_words(mesh, b)}",
                    "element": number + 1,
                    "lower_element": lower + 1,
                    "side": [a + 1, b + 1],
                    "words": [
                        element_words(mesh, lower),
                        element_words(mesh, number),
                        "two neighbours have their common side in opposite directions; in the same direction both lie"
                        " on its left, on each other",
                    ],
                }
            else:
                owner[a, b] = number


def lone_node_reasons(mesh):
    """7: each node in no element."""
    used = {node for element in mesh.elements for node in element.nodes}
    for node in range(len(mesh.nodes)):
        if node not in used:
            yield {"what": f"{node_words(mesh, node)} is in no element", "node": node + 1, "words": []}


def cut_by(polygon, p, q):
    """The part of a convex polygon on the left of the line from p to q."""
    kept = []
    for a, b in zip(polygon, polygon[1:] + polygon[:1]):
        at_a, at_b = rows.turn(p, q, a), rows.turn(p, q, b)
        if at_a >= 0:
            kept.append(a)
        if at_a * at_b < 0:
            part = Fraction(at_a) / (at_a - at_b)
            kept.append(tuple(x + part * (y - x) for x, y in zip(a, b)))
    return kept


def common_part(a, b):
    """The polygon that two convex polygons share."""
    for p, q in zip(b, b[1:] + b[:1]):
        a = cut_by(a, p, q)
    return a


def middle(points):
    """The mean of points, in fractions."""
    return tuple(Fraction(sum(point[axis] for point in points)) / len(points) for axis in (0, 1))


def twice_area(points):
    return sum(a[0] * b[1] - b[0] * a[1] for a, b in zip(points, points[1:] + points[:1]))


def overlap_reasons(mesh):
    """47: each pair of elements that share a point inside both."""
    shapes = [[mesh.nodes[node] for node in rows.corners_of(element)] for element in mesh.elements]
    for number, here in enumerate(shapes):
        for lower, there in enumerate(shapes[:number]):
            if rows.parted(here, there) or rows.parted(there, here):
                continue
            part = common_part(here, there)
            x, y = middle(part)
            yield {
                "what": f"element {number + 1} lies on element {lower + 1}: the point ({x}, {y}) is inside both",
                "element": number + 1,
                "lower_element": lower + 1,
                "point": [str(x), str(y)],
                "words": [
                    *(f"{element_words(mesh, k)}: {', '.join(map(str, shapes[k]))}" for k in (lower, number)),
                    f"they share the corners {', '.join(f'({a}, {b})' for a, b in part)}, an area of"
                    f" {Fraction(twice_area(part)) / 2}",
                ],
            }


def side_fault(mesh, side):
    """Why a directed side is no outer side, or None."""
    owner = {s: number for number, element in enumerate(mesh.elements) for s in rows.sides_of(element)}
    back = side[::-1]
    if side in owner and back in owner:
        return f"its reverse is a side too: it lies between the elements {owner[side] + 1} and {owner[back] + 1}"
    if side in owner:
        return None
    if back in owner:
        words = f"no element has it in this direction, but element {owner[back] + 1} has its reverse"
        return f"{words}: the two nodes are exchanged"
    return "no element has this side"


def edge_reasons(mesh):
    """8: each edge that isn't an outer side of its own."""
    words = "an edge goes from node to node as its element does, counterclockwise, on the outside of the mesh"
    earlier = {}
    for number, edge in enumerate(mesh.edges):
        side, line = (edge.start, edge.end), rows.edge_line(mesh, number)
        fault = side_fault(mesh, side)
        if side in earlier:
            fault = f"edge {earlier[side] + 1} (line {rows.edge_line(mesh, earlier[side])}) has it already"
        earlier.setdefault(side, number)
        if fault:
            yield {
                "what": f"edge {number + 1} (line {line}), {side_words(mesh, side)}: {fault}",
                "line": line,
                "edge": number + 1,
                "words": [words],
            }


def jump_faults(mesh, jump, taken):
    """What is wrong with a jump; `taken` has for each side in use what uses it."""
    for side in ((jump.start, jump.end), (jump.facing_end, jump.facing_start)):
        fault = side_fault(mesh, side) or (f"{taken[side]} has it already" if side in taken else None)
        if fault:
            yield f"{side_words(mesh, side)}: {fault}"
    for name, near, far in (("from", jump.start, jump.facing_start), ("to", jump.end, jump.facing_end)):
        if mesh.nodes[near] != mesh.nodes[far]:
            places = f"{node_words(mesh, near)} faces {node_words(mesh, far)}"
            yield f"at its {name} end {places}, which isn't the same place"


def jump_reasons(mesh):
    """44: each jump whose two sides aren't outer sides that face each other, used by nothing earlier."""
    words = "a jump names from and to on one side, then the nodes facing from and facing to"
    taken = {(edge.start, edge.end): f"edge {number + 1}" for number, edge in enumerate(mesh.edges)}
    for number, jump in enumerate(mesh.jumps):
        line = rows.edge_line(mesh, len(mesh.edges) + number)
        faults = list(jump_faults(mesh, jump, taken))
        for side in ((jump.start, jump.end), (jump.facing_end, jump.facing_start)):
            taken.setdefault(side, f"jump {number + 1}")
        if faults:
            nodes = " ".join(str(node + 1) for node in jump)
            yield {
                "what": f"jump {number + 1} (line {line}, nodes {nodes}): {faults[0]}",
                "line": line,
                "jump": number + 1,
                "words": [*faults[1:], words],
            }


def pair_reasons(mesh):
    """42: the pairs of the node that brings one too many, and of those after it."""
    pairs = rows.strength_pairs(mesh)
    most = rows.MOST_PAIRS_MANY if mesh.sides == rows.MANY_SIDES else rows.MOST_PAIRS
    for node in range(pairs[most][0], len(mesh.nodes)):
        soils = [soil for other, soil in pairs if other == node]
        upto = sum(other <= node for other, _ in pairs)
        words = []
        for soil in soils:
            around = [k + 1 for k, e in enumerate(mesh.elements) if node in e.nodes and e.soil == soil]
            pair = f"pair {pairs.index((node, soil)) + 1}: node {node + 1} with soil {soil + 1}"
            words.append(f"{pair}, of the elements {', '.join(map(str, around))}")
        yield {
            "what": f"{node_words(mesh, node)}: with it there are {upto} pairs of node and soil; a mesh with"
            f" {mesh.sides} sides has at most {most}",
            "node": node + 1,
            "pairs": [[pairs.index((node, soil)) + 1, soil + 1] for soil in soils],
            "words": words,
        }


REASONS = {
    5: turn_reasons,
    6: shared_side_reasons,
    7: lone_node_reasons,
    47: overlap_reasons,
    8: edge_reasons,
    44: jump_reasons,
    42: pair_reasons,
}
