"""The pictures: every node's number is there, labels don't lie on each other, the title says what the claim says, and
the legend has each kind of mark."""

import xml.etree.ElementTree

from held import hold, mesh_changed, sheet

import drawing
import labels
import legend
import marks
import reasons
import rows
from page import NARROWEST, Page, ticks

SVG = "{http://www.w3.org/2000/svg}"
# Labels share no more than a corner of this area, in square pixels.
MOST_SHARED = 5


def texts_of(root):
    return [text.text for text in root.iter(SVG + "text")]


def drawn(name, told, mesh):
    return xml.etree.ElementTree.fromstring(drawing.picture([name], mesh, told))


def hold_picture(name, mesh, told):
    root = drawn(name, told, mesh)
    texts = texts_of(root)
    places = [(float(text.get("x")), float(text.get("y"))) for text in root.iter(SVG + "text")]
    width, height = float(root.get("width")), float(root.get("height"))
    hold(all(0 <= x <= width and 0 <= y <= height for x, y in places), f"{name}: words outside the picture")
    for number in range(1, len(mesh.nodes) + 1 if mesh else 1):
        hold(str(number) in texts, f"{name}: no node number {number} in the picture")


def hold_apart(name, files, told):
    """No two labels lie on each other."""
    mesh = reasons.mesh_to_show(files)
    boxes = drawing.placed_labels(Page(mesh, 0), told).boxes if mesh else []
    for k, box in enumerate(boxes):
        most = max([labels.common(box, other) for other in boxes[:k]], default=0)
        hold(most <= MOST_SHARED, f"{name}: two labels lie on each other")


def told_of(files, archive=()):
    told, mesh = reasons.explanation(files)
    return told | {"archive": archive, "differs": False}, mesh


def words_of(files, **more):
    told, mesh = told_of(files, **more)
    return " ".join(filter(None, texts_of(drawn("it", told, mesh))))


def hold_titles():
    for name, words in (
        ("joint_fan_12", "it: accepted carried 48.528662, limit 48.866396, 45 open rows at 24 nodes"),
        ("bedded_seam", "carried not told, limit 14.166667, 0 open rows"),
        ("footing_field", "limit not told"),
        ("seam_fault", "it: refused with 22 at row 37"),
    ):
        found = words_of(sheet(name))
        hold(words in found, f"{name}: the title lacks '{words}': {found[:300]}")
    found = words_of(sheet("worked"), archive=None)
    hold("this tool's own: no archive is here" in found, f"no archive: {found[:300]}")
    told, _ = told_of(sheet("table_seam"))
    found = " ".join(legend.title_lines(["a.mesh", "b.claim", "c.table"], told, NARROWEST))
    hold("a.mesh with b.claim and c.table: accepted" in found, f"three files: {found}")


def hold_rings():
    """Where nodes share a place, each open one has a ring around its own number."""
    told, mesh = told_of(sheet("joint_grid"))
    frames = [part for part in drawn("it", told, mesh).iter(SVG + "rect") if part.get("stroke") == marks.OPEN]
    nodes = {row["node"] for row in told["open_rows"]}
    shared = [node for node in nodes if mesh.nodes.count(mesh.nodes[node - 1]) > 1]
    hold(len(shared) > 50 and len(frames) == len(shared), f"joint_grid: {len(frames)} rings of {len(shared)}")
    centres = {(float(f.get("x")) + float(f.get("width")) / 2, float(f.get("y"))) for f in frames}
    hold(len(centres) == len(frames), "joint_grid: two rings at one place")


def hold_legends():
    """Each kind of mark that is drawn is explained, and no other."""
    lone = sheet("joint_blocks_uneven")
    for name, files, kinds in (
        ("fan_folded", sheet("fan_folded"), ("area", "lower", "cross")),
        ("table_gap", sheet("table_gap"), ("height",)),
        ("table_overlap", sheet("table_overlap"), ("height",)),
        ("worked_above", sheet("worked_above"), ("node",)),
        ("an edge reversed", mesh_changed("worked", (8, 1, 4), (8, 2, 3)), ("side",)),
        ("joint_blocks_uneven", lone, ("side", "node")),
    ):
        found = words_of(files)
        for kind, words in marks.REFUSED_WORDS.items():
            hold((words in found) == (kind in kinds), f"{name}: the legend, '{words}'")
    found = words_of(sheet("worked_above"))
    hold(marks.ALSO_WORDS["node"] in found, "worked_above: the legend has no other nodes")


def hold_soils():
    """Where a mesh has several soils, each element's number has its soil."""
    told, mesh = told_of(sheet("largest"))
    texts = texts_of(drawn("it", told, mesh))
    for number in range(1, 17):
        expected = sum(element.soil + 1 == number for element in mesh.elements)
        hold(texts.count(f"s{number}") == expected, f"largest: s{number} isn't there {expected} times")
    told, mesh = told_of(sheet("worked"))
    hold("s1" not in texts_of(drawn("it", told, mesh)), "worked: s1 where there is one soil")


def hold_questions():
    files = sheet("footing_12")
    lost = rows.mesh_of(*rows.mesh_files(files.mesh, b""))
    told, _ = told_of(files)
    hold("?" not in texts_of(drawn("it", told, lost)), "footing_12: a question at a side that is meant")


def hold_ticks():
    for low, high, scale, expected in ((0, 1, 560, [0, 1]), (3, 41, 14, [5, 10, 15, 20, 25, 30, 35, 40])):
        hold(list(ticks(low, high, scale)) == expected, f"ticks {list(ticks(low, high, scale))}, not {expected}")


def hold_pictures():
    hold_titles()
    hold_rings()
    hold_legends()
    hold_soils()
    hold_questions()
    hold_ticks()
