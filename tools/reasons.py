"""Why a mesh, a table and a claim get their verdict, as data: the verdict, its reasons, the open rows, what an
accepted claim says, and warnings. `words` and `what` are for readers, all else is figures. Fractions are text."""

from collections import namedtuple
from fractions import Fraction

import file_lines
import line_reasons
import mesh_reasons
import row_names
import row_reasons
import rows
import summary
import unlined_sides
from row_reasons import decimal

# The bytes of a mesh file, a table file and a claim file.
Files = namedtuple("Files", "mesh table claim")

MEANINGS = {
    0: "each part that the claim has passes its checks",
    1: "the form of the mesh or the table: length, character, spelling, bytes missing or left over",
    2: "a number of the mesh or the table is outside its limits",
    3: "p^2 + q^2 is not h^2",
    4: "a line names a node or soil that isn't there",
    46: "a layer of the table has its top not above its bottom, or shares a height of the mesh with an earlier one",
    45: "a height of the mesh is in no layer of the table",
    5: "an element isn't a left turn at all its corners",
    6: "an element has a directed side that a lower element has",
    7: "a node is in no element",
    47: "an element shares a point inside both with a lower element",
    8: "an edge is no outer side of an element, or an earlier edge has it",
    44: "the sides of a jump aren't outer sides that face each other, or one is used already",
    42: "too many pairs of a node and a soil",
    11: "the form of the claim: length, character, spelling, bytes missing or left over",
    12: "a number of the claim is outside its limits",
    13: "the claim's header says nothing that can be checked",
    21: "an equality row doesn't hold",
    22: "a strength row doesn't hold",
    31: "a multiplier other than 0 on a row that asks nothing",
    32: "the sum of a column isn't 0",
    33: "m is 0 or less",
}


# The refusals that say what row or column of a claim fails.
CLAIM_AS_A_WHOLE = 21, 22, 31, 32, 33


def mesh_to_show(files):
    """The mesh, as far as its lines can be read: with its table's soils where the table passes, else without (soil
    -1); None where a line is refused."""
    lines, table = rows.mesh_files(files.mesh, files.table)
    try:
        return rows.mesh_of(lines, table)
    except rows.Refused:
        pass
    try:
        return rows.lined_mesh(rows.FileLines(files.mesh, 1), bool(files.table))
    except rows.Refused:
        return None


def line_reason_list(number, line, file, data, sections, first, counts, with_table):
    """The reasons of 1, 11, 2, 12, 3 and 4, each at a line of a file."""
    if number in (1, 11):
        return [line_reasons.form_reason(file, data, sections, line, first)]
    if number in (2, 12):
        return list(line_reasons.limit_reasons(file, data, sections, line, first))
    if number == 3:
        return [line_reasons.friction_reason(file, data, sections, line)]
    return list(line_reasons.name_reasons(file, data, sections, line, first, counts, with_table))


def mesh_line_reasons(number, line, files):
    """Of a line of the mesh, or of the table, whose lines count from 1,001."""
    mesh_sections = file_lines.mesh_sections(files.mesh)
    counts = {rows.NODE: 0, rows.SOIL: 0} | {section.what: section.count for section in mesh_sections}
    if line < rows.FIRST_LAYER_LINE:
        of = "the mesh", files.mesh, mesh_sections, 1
    else:
        of = "the table", files.table, file_lines.table_sections(files.table), rows.FIRST_LAYER_LINE
    return line_reason_list(number, line, *of, counts, bool(files.table))


def layer_reasons(number, files, mesh):
    """46 and 45: of a table whose lines pass, on the mesh's heights."""
    table = rows.FileLines(files.table, 1, rows.FIRST_LAYER_LINE)
    layers, heights = rows.layers_of(table, rows.things_there(mesh)), rows.heights_of(mesh)
    if number == 45:
        return list(mesh_reasons.gap_reasons(layers, heights))
    turned = list(mesh_reasons.turned_layer_reasons(layers))
    return turned or list(mesh_reasons.shared_layer_reasons(layers, heights))


def empty_reasons(claim_data):
    """13: what of the claim's header can't be."""
    field, multipliers, n, l = file_lines.header_numbers(claim_data, file_lines.CLAIM_START)
    words = [f"the header says field {field}, multipliers {multipliers}, n {n}, l {l}"]
    if not (field or multipliers):
        what = "both parts are absent: neither a field nor multipliers"
    elif field:
        what = "there is a field and n is 0; the true stresses are the field's over n, so n is above 0"
    else:
        what = "there is no field, and n or l isn't 0; without a field both are 0"
    return [{"what": f"the claim, line 1 (the header): {what}", "line": 1, "words": words}]


def judged_parts(files, mesh):
    """The rows and the claim of files whose lines pass."""
    return rows.rows_of(mesh), rows.claim_of(rows.FileLines(files.claim, 11), mesh)


def reasons_of(verdict, files, mesh):
    number = verdict.number
    if number in (1, 2, 3, 4):
        return mesh_line_reasons(number, verdict.place, files)
    if number in (45, 46):
        return layer_reasons(number, files, mesh)
    if number in mesh_reasons.REASONS:
        return list(mesh_reasons.REASONS[number](mesh))
    if number in (11, 12):
        sections = file_lines.claim_sections(files.claim, mesh)
        return line_reason_list(number, verdict.place, "the claim", files.claim, sections, 1, {}, False)
    if number == 13:
        return empty_reasons(files.claim)
    return list(row_reasons.claim_reasons(mesh, *judged_parts(files, mesh)))


def with_file(number, reason):
    """A reason at a line, with the file that has the line."""
    if "line" not in reason:
        return reason
    of_claim = "claim" if number in (11, 12, 13) else "mesh"
    return {"file": "table" if reason["line"] >= rows.FIRST_LAYER_LINE and of_claim == "mesh" else of_claim, **reason}


# What is said beside the reasons


def load_words(mesh):
    """What the load factor multiplies."""
    for number, edge in enumerate(mesh.edges):
        if any(edge.live):
            yield f"{row_names.edge_words(mesh, number)}: live normal {edge.live[0]}, live shear {edge.live[1]}"
    for number, soil in enumerate(mesh.soils):
        if any(soil.live):
            yield f"soil {number + 1}: live force ({soil.live[0]}, {soil.live[1]}) on each unit of area"


def bedded_words(mesh):
    """Why a mesh that lists a soil of kind 1 has no lower load."""
    used = {element.soil for element in mesh.elements}
    for number, soil in enumerate(mesh.soils):
        if soil.kind:
            has = "" if number in used else ", though no element has it"
            yield (
                f"the mesh lists soil {number + 1} of kind 1, stronger one way (line {number + 2}){has}: its rows"
                " bound the strength of some planes only, so no carried load is told, and the lower load reads none"
            )


def rounded(numerator, denominator, up):
    """A load as a fraction and in six decimals, rounded as the report rounds it."""
    load = Fraction(numerator, denominator)
    text = rows.decimal(load, up, 6)
    exact = "" if Fraction(text) == load else f" (rounded {'up' if up else 'down'})"
    return f"{numerator}/{denominator} = {text}{exact}"


def loads(mesh, verdict):
    """What an accepted claim says, in words and figures."""
    told, words = {}, []
    if verdict.n is not None:
        told |= {"l": verdict.l, "n": verdict.n}
        words.append(f"carried: l/n = {rounded(verdict.l, verdict.n, False)} times the live loads, with the dead ones")
    words += bedded_words(mesh)
    if verdict.m is not None:
        told |= {"W": verdict.w, "m": verdict.m}
        limit = rounded(verdict.w, verdict.m, True)
        words.append(f"the limit: W/m = {limit}; no field that meets this mesh's rows has more")
    if verdict.n is not None and verdict.m is not None:
        gap = Fraction(verdict.w, verdict.m) - Fraction(verdict.l, verdict.n)
        told |= {"gap": str(gap), "width": verdict.w * verdict.n - verdict.m * verdict.l}
        words.append(f"W/m less l/n is {decimal(gap)}" + ("" if gap else ": the two loads are equal"))
    live = list(load_words(mesh))
    words += [f"live: {line}" for line in live] or ["no edge and no soil has a live load"]
    words.append("a load of this mesh: rows balance each element as a whole, so it is no strict bound for the ground")
    return told, words


def open_row_words(claim, all_rows, found):
    """The open rows' sum, which is the whole of the bracket's width."""
    w, m = rows.right_sum(all_rows, claim.multipliers), rows.load_sum(all_rows, claim.multipliers)
    products = sum(row["multiplier"] * row["spare"] for row in found)
    return [
        f"W*n - m*l = {w}*{claim.n} - {m}*{claim.l} = {w * claim.n - m * claim.l}",
        f"the sum of multiplier * strength to spare over the {len(found)} open rows is {products}, the same",
    ]


def explanation(files):
    """All that is to be said of three files."""
    verdict, report = rows.check(*files)
    mesh = mesh_to_show(files)
    told = {
        "number": verdict.number,
        "place": verdict.place,
        "kind_of_place": verdict.kind,
        "meaning": MEANINGS[verdict.number],
        "report": rows.told(report),
        "summary": [],
        "reasons": [],
        "loads": {},
        "load_words": [],
        "open_rows": [],
        "open_row_words": [],
        "warnings": [],
    }
    if verdict.number:
        told["reasons"] = [with_file(verdict.number, reason) for reason in reasons_of(verdict, files, mesh)]
        if verdict.number in CLAIM_AS_A_WHOLE:
            told["summary"] = summary.summary(mesh, rows.rows_of(mesh), told["reasons"])
    else:
        told["loads"], told["load_words"] = loads(mesh, verdict)
        all_rows, claim = judged_parts(files, mesh)
        if verdict.open_rows is not None:
            told["open_rows"] = list(row_reasons.open_row_reasons(mesh, all_rows, claim))
            told["open_row_words"] = open_row_words(claim, all_rows, told["open_rows"])
    if mesh and verdict.number not in (45, 46, 5, 6):
        told["warnings"] = list(unlined_sides.unlined_reasons(mesh))
    return told, mesh
