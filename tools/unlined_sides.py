"""The outer sides that no line speaks of, which may carry anything: which of them look forgotten, and which look meant.

A straight run of such sides is asked about where an edge goes straight on from it, where it lies between two edges off
the mesh's bottom and flanks, and where it is level ground beside an edge. It looks meant where it is one side between
two edges that ask different things of a node, as a loaded one and a free one do: they can't share one."""

from collections import namedtuple

import rows
from mesh_reasons import side_words

# question: whether its line may be forgotten; edges: those at the ends that tell; words: what is said of it.
Look = namedtuple("Look", "question edges words", defaults=((), ""))


def unlined_sides(mesh):
    """(element, side) of the outer sides without an edge line or a jump, in the order of the elements. A side that a
    line names in reverse isn't one: its line is there, and wrong."""
    lined = {(edge.start, edge.end) for edge in mesh.edges}
    for jump in mesh.jumps:
        lined |= {(jump.start, jump.end), (jump.facing_end, jump.facing_start)}
    free = rows.outer_sides(mesh) - lined - {side[::-1] for side in lined}
    sides = [(number, side) for number, element in enumerate(mesh.elements) for side in rows.sides_of(element)]
    return [(number, side) for number, side in sides if side in free]


def straight(mesh, side, other):
    """Whether the other side, which begins where this one ends, goes on in its direction."""
    a, b, c = mesh.nodes[side[0]], mesh.nodes[side[1]], mesh.nodes[other[1]]
    onward = (b[0] - a[0]) * (c[0] - b[0]) + (b[1] - a[1]) * (c[1] - b[1])
    return rows.turn(a, b, c) == 0 and onward > 0


def run_of(mesh, side, sides):
    """The unlined sides that go on straight from one, it among them, in order."""
    run = [side]
    while after := [other for other in sides if other[0] == run[-1][1] and straight(mesh, run[-1], other)]:
        run.append(after[0])
    while before := [other for other in sides if other[1] == run[0][0] and straight(mesh, other, run[0])]:
        run.insert(0, before[0])
    return run


def edges_at(mesh, run):
    """(edges that end where the run begins, edges that begin where it ends)."""
    before = [k for k, edge in enumerate(mesh.edges) if edge.end == run[0][0]]
    return before, [k for k, edge in enumerate(mesh.edges) if edge.start == run[-1][1]]


def going_straight(mesh, run, before, after):
    """Those of them that the run goes on in."""
    ends = [edge[:2] for edge in mesh.edges]
    straight_before = [k for k in before if straight(mesh, ends[k], run[0])]
    return straight_before, [k for k in after if straight(mesh, run[-1], ends[k])]


def at_odds(one, other):
    """Whether two edges ask different things of a node that both have."""
    both = one.fixed & other.fixed
    return any(
        both & (1 << part) and (one.dead[part], one.live[part]) != (other.dead[part], other.live[part])
        for part in (0, 1)
    )


def far_out(mesh, side):
    """Whether a side is at the mesh's bottom, its left or its right."""
    (ax, ay), (bx, by) = (mesh.nodes[node] for node in side)
    xs, ys = zip(*mesh.nodes)
    return ay == by == min(ys) or ax == bx and ax in (min(xs), max(xs))


def faces_up(mesh, side):
    """Whether a side is level with the ground below it: no bottom and no flank."""
    (ax, ay), (bx, by) = (mesh.nodes[node] for node in side)
    return ay == by and bx < ax


def what_of(edge):
    """An edge's kind in a word."""
    if edge.fixed != 3:
        return "normal alone" if edge.fixed == 1 else "shear alone"
    return "loaded" if any(edge.dead + edge.live) else "free"


def edge_list(mesh, numbers):
    return " and ".join(f"edge {k + 1} ({what_of(mesh.edges[k])})" for k in numbers)


def look_of(mesh, run):
    """How a straight run of unlined sides looks."""
    before, after = edges_at(mesh, run)
    onward = going_straight(mesh, run, before, after)
    odd = any(at_odds(mesh.edges[a], mesh.edges[b]) for a in onward[0] for b in onward[1])
    edges = [*onward[0], *onward[1]]
    if odd and len(run) == 1:
        words = f"between {edge_list(mesh, edges)}, which can't share a node: it looks meant"
        return Look(False, edges, words)
    if odd:
        words = f"{len(run)} such sides between {edge_list(mesh, edges)}, where one would do: is a line forgotten?"
        return Look(True, edges, words)
    if edges:
        return Look(True, edges, f"it goes on straight as {edge_list(mesh, edges)}: is its line forgotten?")
    edges = before[:1] + after[:1]
    if before and after and not far_out(mesh, run[0]):
        return Look(True, edges, f"it lies between {edge_list(mesh, edges)}: is its line forgotten?")
    if edges and faces_up(mesh, run[0]):
        return Look(True, edges, f"it faces up, beside {edge_list(mesh, edges)}: is its line forgotten?")
    return Look(False)


def unlined_reasons(mesh):
    """A warning for each of them, those with a question first, then those that look meant, then the others."""
    all_sides = unlined_sides(mesh)
    sides, warnings = [side for _, side in all_sides], []
    for number, side in all_sides:
        look = look_of(mesh, run_of(mesh, side, sides))
        words = f"no edge line at {side_words(mesh, side)}, of element {number + 1}: this side may carry anything"
        place = {"element": number + 1, "side": [side[0] + 1, side[1] + 1]}
        beside = {"question": look.question, "edges_beside": [edge + 1 for edge in look.edges]}
        what = f"{words}; {look.words}" if look.words else words
        warnings.append({"what": what, **place, **beside, "words": []})
    return sorted(warnings, key=lambda warning: (not warning["question"], not warning["edges_beside"]))
