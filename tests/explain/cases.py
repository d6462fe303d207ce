"""Holds tools/explain.py to the archive, to its own figures and to the words that a reader needs."""

import json
import math
import os
import re
import sys
import tempfile
from fractions import Fraction

from held import ROOT, SHEETS, TOOLS, claim_changed, failures, files_of, hold, sheet

import archive
import command
import conversion
import damaged
import explain
import json_form
import pictures
import reasons
import row_names
import rows
import sides

CALLS = archive.library()
members = set()


# What holds of every explanation

PLACE_OF = {kind: kind for kind in ("line", "element", "node", "row", "column")} | {"height": "lowest_quarter"}


def redone(written):
    """What a written-out sum comes to, worked out from its middle part."""
    parts = written.split(" = ")
    return eval(parts[1]) if len(parts) == 3 else int(written)


def hold_figures(name, item):
    for side in ("left", "right"):
        if side in item:
            written = item[f"{side}_written_out"]
            hold(item["difference"] == item["left"] - item["right"], f"{name}: the difference of {item['what']}")
            hold(redone(written) == item[side] and written.endswith(str(item[side])), f"{name}: {written}")
    if "terms" in item:
        products = [term["multiplier"] * term["coefficient"] for term in item["terms"]]
        told = [term["product"] for term in item["terms"]]
        hold(products == told and sum(told) == item["sum"], f"{name}: terms of {item['what']}")


def hold_point(name, mesh, item):
    """The point of a 47 is inside both elements."""
    point = [Fraction(part) for part in item["point"]]
    for element in (item["element"], item["lower_element"]):
        sides = rows.sides_of(mesh.elements[element - 1])
        inside = all(rows.turn(mesh.nodes[a], mesh.nodes[b], point) > 0 for a, b in sides)
        hold(inside, f"{name}: {item['what']}")


def hold_spare(name, files, mesh, told):
    """Every failing row and every open row is told, with its own strength to spare or what it is off by."""
    if told["number"] not in (0, 21, 22) or "n" not in told["loads"] and not told["number"]:
        return
    all_rows, claim = reasons.judged_parts(files, mesh)
    failing = rows.failing(all_rows, claim)
    expected = [(refusal, row.kind, row.number, rows.spare(row, claim)) for refusal, row in failing]
    found = [item for item in told["reasons"] if item["refusal"] in (21, 22)]
    found = [(item["refusal"], item["row_kind"], item["row"], item["right"] - item["left"]) for item in found]
    hold(found == expected, f"{name}: failing rows {found}, expected {expected}")
    hold_summary(name, all_rows, told)
    hold(all(row["spare"] == row["right"] - row["left"] > 0 for row in told["open_rows"]), f"{name}: open rows")


def hold_summary(name, all_rows, told):
    """Each kind of row that fails is told with how many do, and none is off by more than the worst."""
    failing = [reason for reason in told["reasons"] if reason["refusal"] in (21, 22)]
    for part in told["summary"]:
        alike = [reason for reason in failing if reason["row_kind"] == part.get("row_kind")]
        if part["refusal"] in (21, 22):
            off = [abs(Fraction(reason["left"] - reason["right"], reason["divisor"])) for reason in alike]
            worst = [reason for reason, much in zip(alike, off) if much == max(off)]
            hold(part["failing"] == len(alike) and part["row"] == worst[0]["row"], f"{name}: in short, {part['what']}")
            hold(worst[0]["what"] in part["what"], f"{name}: in short, {part['what']}")
    kinds = {reason["row_kind"] for reason in failing} if len(told["reasons"]) > 1 else set()
    told_kinds = {part["row_kind"] for part in told["summary"] if part["refusal"] in (21, 22)}
    hold(kinds == told_kinds, f"{name}: in short, {told_kinds} of {kinds}")


def leaves(value, member=None):
    """(member, value) of all that is no list or object, and of each object's members."""
    if isinstance(value, dict):
        for key, part in value.items():
            members.add(key)
            yield from leaves(part, key)
    elif isinstance(value, list):
        for part in value:
            yield from leaves(part, member)
    else:
        yield member, value


def hold_json_form(name, told):
    """JSON has every figure, and none that a reader would round."""
    written = json.loads(json_form.json_text(told))
    before, after = list(leaves(told)), list(leaves(written))
    same = [str(value) for _, value in before] == [str(value) for _, value in after]
    hold(same, f"{name}: JSON loses something")
    for member, value in after:
        hold(not isinstance(value, int) or abs(value) < 2**53, f"{name}: {member} {value} is rounded by readers")


def hold_places():
    """What a row is about, whole."""
    files = claim_changed("worked", (2, 1, 5))
    balance = explained("a stress changed", files)["reasons"][0]
    side = explained("worked_unbalanced", sheet("worked_unbalanced"))["reasons"][0]
    jump = explained("joint_blocks_uneven", sheet("joint_blocks_uneven"))["reasons"][0]
    strength = explained("seam_fault", sheet("seam_fault"))["reasons"][0]
    plane = explained("bedded_block_half", claim_changed("bedded_block_half", (1, 3, 5)))["reasons"][-1]
    expected = (
        (balance, {"element": 1, "axis": "x", "difference": -5}),
        (side, {"edge": 1, "end": "from", "part": "normal", "node": 3, "difference": -1}),
        (jump, {"jump": 1, "end": "from", "part": "normal", "node": 2, "facing_node": 3}),
        (strength, {"polygon_side": 1, "corner": [5, 0], "next_corner": [4, 3], "normal": [3, 1], "angle": 18.43}),
        (strength, {"pair": 4, "node": 3, "soil": 2, "ground_angle": 9.22, "difference": 600}),
        (strength, {"left_stress": "30", "right_stress": "10", "difference_stress": "20"}),
        (plane, {"plane": 6, "corner": [-4, 3], "sense": "pN + qT", "ground_angle": 143.13}),
    )
    for reason, place in expected:
        found = {member: reason.get(member) for member in place}
        hold(found == place, f"{reason['what']}: {found}, expected {place}")


def hold_members():
    """Every member of the JSON is in the list of tools/README.md, and the list has no other."""
    with open(os.path.join(TOOLS, "README.md"), encoding="utf-8") as file:
        section = file.read().split("## What explain.py writes as JSON")[1].split("\n## ")[0]
    cells = [line.split("|")[1] for line in section.split("\n") if line.startswith("| `")]
    listed = set(re.findall(r"`(\w+)`", " ".join(cells)))
    hold(listed == members, f"the members of the JSON and tools/README.md differ by {sorted(listed ^ members)}")


def explained(name, files):
    """The explanation of files, held to the archive and to itself."""
    told, mesh = reasons.explanation(files)
    number, place, report = archive.ask(CALLS, *files)
    report = report.decode("ascii").rstrip("\n")
    told |= {"archive": {"number": number, "place": place, "report": report}, "differs": False}
    answer = told["number"], told["place"], told["report"]
    hold(answer == (number, place, report), f"{name}: {answer}, the archive says {number} {place} {report}")
    hold(bool(told["reasons"]) == (number != 0), f"{name}: {len(told['reasons'])} reasons of {number}")
    for item in told["reasons"][:1]:
        found = item.get(PLACE_OF[told["kind_of_place"]])
        hold(found == place, f"{name}: the first reason is of {found}, the place is {place}")
    for item in told["reasons"] + told["open_rows"]:
        hold_figures(name, item)
        if "point" in item:
            hold_point(name, mesh, item)
    hold_spare(name, files, mesh, told)
    if told["open_rows"]:
        load, products = told["loads"], [row["multiplier"] * row["spare"] for row in told["open_rows"]]
        if "n" in load:
            width = load["W"] * load["n"] - load["m"] * load["l"]
            gap = Fraction(load["W"], load["m"]) - Fraction(load["l"], load["n"])
            hold(load["width"] == width and Fraction(load["gap"]) == gap, f"{name}: the loads {load}")
            hold(sum(products) == width, f"{name}: open rows make {sum(products)}, the bracket {width}")
    hold_json_form(name, told)
    pictures.hold_picture(name, mesh, told)
    return told


def hold_sheets():
    with open(os.path.join(SHEETS, "expected"), encoding="ascii") as expected:
        lines = expected.read().splitlines()
    for line in lines:
        name, report = line.split(" ", 1)
        told = explained(name, sheet(name))
        hold(told["report"] == report, f"{name}: {told['report']}, expected {report}")
        pictures.hold_apart(name, sheet(name), told)
    return len(lines)


def hold_vectors():
    """Returns how many cases there are, and the refusals among them."""
    folder = os.path.join(ROOT, "tests", "vectors", "cases")
    names = sorted(name[:-5] for name in os.listdir(folder) if name.endswith(".mesh"))
    return len(names), {explained(f"case {name}", files_of(folder, name))["number"] for name in names}


# Damaged files, long ones, and places


def hold_damaged():
    """Returns how many there are, and their numbers."""
    cases = damaged.damaged()
    for number, place, files, words in cases:
        name = f"{number} at {place}, '{words}'"
        told = explained(name, files)
        found = told["number"], told["place"]
        hold(found == (number, found[1] if place is None else place), f"{name}: found {found}")
        text = "\n".join(explain.in_words(told, True))
        hold(words in text, f"{name}: not in\n{text}")
    return len(cases), {case[0] for case in cases}


def hold_long():
    """A long refusal is cut short unless all of it is asked for, and has its worst row before the others."""
    told, _ = reasons.explanation(damaged.doubled("footing_largest_108"))
    told["archive"] = None
    text = "\n".join(explain.in_words(told, False))
    hold("and 1371 more; --full has them all" in text and len(text) < 32_000, f"long: {len(text)} characters")
    hold(text.index("in short:") < text.index("strength row 116") < text.index("why, 1431 in all"), "long: the order")
    whole = "\n".join(explain.in_words(told, True))
    hold(whole.count("\n- strength row") == 1431 and "--full" not in whole, "long: not all with --full")


def hold_directions():
    """The direction that a strength row's words name is the one in which a pull alone reaches that row first; of kind
    1, the one in which a pull is the plane's whole normal stress."""
    for kind, most_off in ((0, 9.3), (1, 18.5)):
        soil = rows.Soil(0, 1, 1, 10, (0, 0), (0, 0), kind, 10)
        mesh = rows.Mesh(12, [soil], [(0, 0)], [rows.Element((0, 0, 0, 0), 0)], [], [])
        strength = [row for row in rows.rows_of(mesh) if row.kind == "strength"]
        for turned in range(180):
            x, y = math.cos(math.radians(turned)), math.sin(math.radians(turned))
            pull = [x * x, y * y, x * y]
            if kind:
                normals = [corner for corner in rows.corners(12)[:6] for _ in (0, 1)]
                reached = [(a * a * pull[0] + 2 * a * b * pull[2] + b * b * pull[1]) for a, b in normals]
            else:
                reached = [sum(c * pull[k] for k, c in row.entries.items()) / row.right for row in strength]
            words = row_names.row_words(mesh, strength[reached.index(max(reached))])
            said = float(re.search(r"at (?:about )?([0-9.]+) degrees from x", words)[1])
            off = abs((said - turned + 90) % 180 - 90)
            hold(off <= most_off, f"kind {kind}, a pull at {turned} degrees from x: {words}")


def hold_bedded():
    """No word of a carried load on a mesh that lists a soil of kind 1."""
    names = [name[:-5] for name in os.listdir(SHEETS) if name.startswith("bedded") and name.endswith(".mesh")]
    for name in names:
        told = explained(name, sheet(name))
        hold(not any(line.startswith("carried") for line in told["load_words"]), f"{name}: says what is carried")
        words = " ".join(told["load_words"])
        hold("n" not in told["loads"] and "no carried load is told" in words, f"{name}: {told['loads']}")


def main():
    hold(CALLS is not None, "no archive is built")
    if CALLS is not None:
        sheets = hold_sheets()
        cases, case_numbers = hold_vectors()
        changed, changed_numbers = hold_damaged()
        hold(set(reasons.MEANINGS) == changed_numbers, f"not damaged: {set(reasons.MEANINGS) ^ changed_numbers}")
        hold(case_numbers <= set(reasons.MEANINGS), f"not explained: {case_numbers - set(reasons.MEANINGS)}")
        hold_bedded()
        hold_long()
        hold_directions()
        sides.hold_sides()
        pictures.hold_pictures()
        hold_places()
        hold_members()
        with tempfile.TemporaryDirectory() as out:
            command.hold_command(out)
        with tempfile.TemporaryDirectory() as out:
            conversion.hold_conversion(out)
        print(f"{sheets} sheets, {cases} cases, {changed} damaged or telling inputs explained")
    print("\n".join(failures), end="\n" if failures else "")
    sys.exit(bool(failures))


if __name__ == "__main__":
    main()
