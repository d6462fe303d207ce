"""What a line of a wrong form looks like instead: a line of another kind, of an older form, or of another mesh."""

from collections import Counter

import rows
from file_lines import CLAIM_START, MESH_START, physical_line

STARTS = {4: "a claim's header", 6: "a mesh's header"}
MESH_LINES = {2: "a node", 4: "a jump", 5: "an element", 6: "a mesh's header", 7: "an edge", 10: "a soil"}
CLAIM_LINES = {2: "the multipliers of an element", 3: "the stresses of a node", 4: "the multipliers of an edge or jump"}
CLAIM_LINES |= {sides: f"the multipliers of a pair with {sides} sides" for sides in rows.RADII}
LAYER_COLUMNS = 3


def columns_of(line):
    """How many whole columns a line's bytes are, or None."""
    columns, odd = divmod(len(line), rows.WIDTH)
    return None if odd else columns


def of_line(file, data, sections, line):
    """Hints at a line whose form is refused."""
    rest = physical_line(data, line.start).rstrip(b"\r\n")
    if rest.startswith(b"\xef\xbb\xbf"):
        yield "the file begins with a byte order mark, which a text editor wrote; a file begins with its first column"
    if b"\t" in rest:
        yield "it has tabs; only spaces fill a column"
    columns = columns_of(rest)
    if data[line.start :] and columns not in (None, len(line.section.names)):
        yield from other_columns(file, line, columns)
    if file == "the claim":
        yield from of_claim(data, sections)


def other_columns(file, line, columns):
    """What has so many columns."""
    like, older = None, line.section == MESH_START and columns == 5 or line.section.what == "soil" and columns == 8
    if older:
        yield f"it has {columns} columns, as in an older form: tools/convert_mesh.py writes such a mesh in today's"
    elif line.section in (MESH_START, CLAIM_START) and columns in STARTS:
        like = STARTS[columns], "has: are mesh and claim swapped?"
    elif line.section in (MESH_START, CLAIM_START) and columns == LAYER_COLUMNS:
        like = "a layer of a table", "has: are the files in their order, mesh, claim, table?"
    elif line.section.what == "layer" and columns in STARTS:
        like = STARTS[columns], "has: are the files in their order, mesh, claim, table?"
    elif file == "the mesh" and columns in MESH_LINES:
        like = MESH_LINES[columns], "has: do the header's counts fit the lines?"
    elif file == "the claim" and columns in CLAIM_LINES:
        like = CLAIM_LINES[columns], "have"
    if like:
        yield f"it has {columns} columns, as {like[0]} {like[1]}"


# A claim of another mesh


def things(counts):
    """What the lines of a claim belong to, by their columns: '35 nodes, 24 elements, ..'."""
    names = (3, "node"), (2, "element"), (4, "edge or jump")
    words = [(counts[columns], name, "") for columns, name in names if columns in counts]
    words += [(counts[sides], "pair", f" with {sides} sides") for sides in rows.RADII if sides in counts]
    return ", ".join(f"{count} {many(name, count)}{more}" for count, name, more in words) or "nothing"


def many(name, count):
    return name if count == 1 else name.replace("edge or jump", "edges and jump") + "s"


def of_claim(data, sections):
    """Where a claim's lines, by their columns, aren't as many as the mesh asks for."""
    if len(sections) == 1:
        return
    lines = data.replace(b"\r\n", b"\n").removesuffix(b"\n").split(b"\n")[1:]
    found = [columns_of(line) for line in lines]
    asked = [len(section.names) for section in sections[1:] for _ in range(section.count)]
    if None in found or 0 in found or Counter(found) == Counter(asked):
        return
    cut = ", or is it cut short" if found == asked[: len(found)] else ""
    yield f"is the claim of another mesh{cut}? This one has {things(Counter(asked))}"
    yield f"the claim's lines are those of {things(Counter(found))}"
