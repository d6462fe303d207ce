"""What a row is, in words and as data: its element, edge, jump or pair, and of a strength row the side of the polygon
or the plane, with the direction in the ground that it means."""

import math

import rows
from mesh_reasons import element_words, node_words

PARTS = "normal", "shear"
ENDS = "from", "to"
AXES = "x", "y"
SENSES = "pN + qT", "pN - qT"


def angle(a, b, part=1, places=2):
    """The angle of (a, b) from x in degrees, counterclockwise, over a part, within a turn over that part."""
    return round(math.degrees(math.atan2(b, a)) % 360 / part, places) % (360 / part)


def degrees(a, b, part=1, places=2):
    return f"{angle(a, b, part, places):.{places}f}".rstrip("0").rstrip(".") + " degrees"


def pair_words(mesh, pair):
    node, soil = pair
    number = rows.strength_pairs(mesh).index(pair) + 1
    return f"pair {number}, {node_words(mesh, node)} with soil {soil + 1}"


def polygon_side(mesh, k):
    corner = rows.corners(mesh.sides)
    return corner[k], corner[(k + 1) % mesh.sides]


def side_normal(mesh, k):
    (a, b), (c, d) = polygon_side(mesh, k)
    return d - b, a - c


def plane_corner(mesh, k):
    """The corner that is the plane's normal, times r, of row k of a pair of kind 1."""
    return polygon_side(mesh, k // 2)[0]


def direction_words(mesh, soil, k):
    """What row k of a pair looks at, by its direction in the ground. Kind 0: sx - sy = R cos 2v and 2t = R sin 2v,
    where the greatest stress, tension positive, acts at v from x; so a side with its normal at a means v = a/2. Kind
    1: (a, b)/r is the plane's normal itself."""
    if soil.kind:
        (a, b), r = plane_corner(mesh, k), rows.radius(mesh.sides)
        return (
            f"plane {k // 2 + 1} of {mesh.sides // 2}, whose normal in the ground, ({a}, {b})/{r}, is at"
            f" {degrees(a, b)} from x, {SENSES[k % 2]}"
        )
    return (
        f"side {k + 1} of the polygon's {mesh.sides}, for ground pulled most, or pressed least, at about"
        f" {degrees(*side_normal(mesh, k), 2, 1)} from x"
    )


def edge_words(mesh, number):
    edge = mesh.edges[number]
    return f"edge {number + 1} (line {rows.edge_line(mesh, number)}, nodes {edge.start + 1} to {edge.end + 1})"


def jump_words(mesh, number):
    line = rows.edge_line(mesh, len(mesh.edges) + number)
    nodes = " ".join(str(node + 1) for node in mesh.jumps[number])
    return f"jump {number + 1} (line {line}, nodes {nodes})"


def row_words(mesh, row):
    if row.kind == "balance":
        number, axis = row.of
        return f"balance {AXES[axis]} of {element_words(mesh, number)}"
    if row.kind == "side":
        number, end, part = row.of
        node = mesh.edges[number][end]
        return f"{PARTS[part]} at node {node + 1}, the {ENDS[end]} end of {edge_words(mesh, number)}"
    if row.kind == "jump":
        number, end, part = row.of
        near, far = mesh.jumps[number][end], mesh.jumps[number][end + 2]
        words = f"{PARTS[part]} of node {near + 1} less node {far + 1}'s"
        return f"{words}, the {ENDS[end]} end of {jump_words(mesh, number)}"
    node, soil, k = row.of
    return f"{pair_words(mesh, (node, soil))}, {direction_words(mesh, mesh.soils[soil], k)}"


def row_name(row):
    return f"strength row {row.number}" if row.kind == "strength" else f"equality row {row.number}"


def strength_place(mesh, row):
    """Of a strength row also the polygon's side or the plane, in figures; angles are in degrees from x."""
    node, soil, k = row.of
    place = {"pair": rows.strength_pairs(mesh).index((node, soil)) + 1, "node": node + 1, "soil": soil + 1}
    corner, next_corner = polygon_side(mesh, k)
    if mesh.soils[soil].kind:
        corner = plane_corner(mesh, k)
        sense = {"corner": list(corner), "sense": SENSES[k % 2], "ground_angle": angle(*corner)}
        return place | {"plane": k // 2 + 1} | sense
    normal = side_normal(mesh, k)
    corners = {"corner": list(corner), "next_corner": list(next_corner), "normal": list(normal)}
    return place | {"polygon_side": k + 1} | corners | {"angle": angle(*normal), "ground_angle": angle(*normal, 2)}


def place_of(mesh, row):
    """The things that a row is about, counted from 1."""
    if row.kind == "balance":
        number, axis = row.of
        return {"element": number + 1, "axis": AXES[axis]}
    if row.kind == "strength":
        return strength_place(mesh, row)
    number, end, part = row.of
    ends = {"end": ENDS[end], "part": PARTS[part]}
    if row.kind == "side":
        return {"edge": number + 1, **ends, "node": mesh.edges[number][end] + 1}
    jump = mesh.jumps[number]
    return {"jump": number + 1, **ends, "node": jump[end] + 1, "facing_node": jump[end + 2] + 1}
