"""Damaged files and telling ones, group by group: number, place (None is any), files, words that must be told."""

from held import claim_bytes, claim_changed, lines_of, mesh_bytes, mesh_changed, sheet, table_changed, with_line
from held import with_number

import reasons
import rows


def free_edge_lost():
    """footing_12 without the line of its last free edge, as it is forgotten; a field alone."""
    files = sheet("footing_12")
    mesh, lines = rows.mesh_of(rows.FileLines(files.mesh, 1), rows.FileLines(b"", 1)), lines_of(files.mesh)
    last = max(k for k, edge in enumerate(mesh.edges) if edge.fixed == 3 and not any(edge.dead + edge.live))
    del lines[rows.edge_line(mesh, last) - 1]
    lost = with_number("\n".join(lines).encode("ascii"), 1, 4, len(mesh.edges) - 1)
    claim = lines_of(files.claim)[: 1 + len(mesh.nodes)]
    return reasons.Files(lost, b"", with_number(("\n".join(claim) + "\n").encode("ascii"), 1, 2, 0))


def jump_twice():
    files = sheet("joint_blocks")
    return files._replace(mesh=with_line(with_number(files.mesh, 1, 6, 2), 19, (2, 6, 3, 7)))


def jump_far_away():
    """joint_blocks without the line of edge 5, and the jump facing that side."""
    files = mesh_changed("joint_blocks", (1, 4, 5), (19, 3, 8), (19, 4, 4))
    lines = lines_of(files.mesh)
    del lines[16]
    return files._replace(mesh="\n".join(lines).encode("ascii"))


def other_claim(mesh, claim):
    return sheet(mesh)._replace(claim=sheet(claim).claim)


def doubled(name):
    """A field twice as strong, with twice the load."""
    files, numbers = sheet(name), [line.split() for line in lines_of(sheet(name).claim)]
    nodes = int(lines_of(files.mesh)[0].split()[0])
    numbers[0][3] = 2 * int(numbers[0][3])
    for line in numbers[1 : 1 + nodes]:
        line[:] = [2 * int(number) for number in line]
    return files._replace(claim=rows.text_of([map(int, line) for line in numbers[:-1]]))


def mesh_forms():
    base = sheet("worked")
    return [
        (1, 1, mesh_bytes(lambda mesh: mesh.replace(b"\n", b"\r\n")), "the line ends with CR LF"),
        (1, 4, mesh_bytes(lambda mesh: mesh[:219] + b"\t" + mesh[220:]), "[<TAB>          1]"),
        (1, 4, mesh_bytes(lambda mesh: mesh[:219] + b"\t" + mesh[220:]), "byte 1 of the line, byte 220 of the file"),
        (1, 10, mesh_bytes(lambda mesh: mesh[:-1]), "the file ends without the line's byte 10"),
        (1, 11, mesh_bytes(lambda mesh: mesh + b"\n"), "bytes left over: [<LF>]"),
        (1, 1, mesh_bytes(lambda mesh: b""), "the file is empty"),
        (1, 1, mesh_bytes(lambda mesh: base.claim), "are mesh and claim swapped?"),
        (1, 1, mesh_bytes(lambda mesh: mesh[:60] + mesh[72:]), "tools/convert_mesh.py writes such a mesh in today's"),
        (1, 1, mesh_bytes(lambda mesh: b"\xef\xbb\xbf" + mesh), "byte order mark"),
        (1, 3, mesh_bytes(lambda mesh: mesh[:204] + b"00" + mesh[206:]), "a leading zero"),
        (1, 6, mesh_bytes(lambda mesh: mesh[:194] + mesh[219:]), "do the header's counts fit the lines?"),
        (1, 1001, base._replace(table=b" "), "the table, line 1001 (layer 1), column 1 (bottom)"),
    ]


def mesh_numbers():
    return [
        (2, 1, mesh_changed("worked", (1, 5, 13)), "column 5 (sides): 13, where 12, 20, 36 or 108 may be"),
        (2, 2, mesh_changed("block_sand_108", (2, 9, 1)), "a mesh with 108 sides has soils of kind 0 alone"),
        (2, 1, mesh_changed("block_sand_108", (1, 1, 41)), "41 nodes, where a mesh with 108 sides has at most 40"),
        (2, 1002, table_changed("table_seam", (2, 1, 3000)), "line 1002 (layer 2), column 1 (bottom): 3000"),
        (3, 2, mesh_changed("worked", (2, 1, 3), (2, 2, 4), (2, 3, 6)), "p*p + q*q = 3*3 + 4*4 = 25"),
        (4, 7, mesh_changed("worked", (7, 4, 9)), "column 4 (fourth node): node 9 isn't there"),
        (4, 7, mesh_changed("worked", (7, 5, 0)), "no table was handed over"),
        (4, 1001, table_changed("table_seam", (1, 3, 9)), "soil 9 isn't there"),
    ]


def tables():
    return [
        (46, 1001, table_changed("table_worked", (1, 2, -9)), "its top -9 isn't above its bottom"),
        (46, 1003, sheet("table_overlap"), "shares heights of the mesh with line 1002: 10 to 10.75"),
        (45, 4, sheet("table_gap"), "no layer at height 1 (4 quarters of a unit)"),
    ]


def meshes():
    return [
        (5, 1, mesh_changed("worked", (7, 1, 4), (7, 2, 3), (7, 3, 2), (7, 4, 1)), "the nodes go clockwise"),
        (5, 1, mesh_changed("worked", (7, 2, 1)), "a node is repeated; only the third may be"),
        (
            6,
            2,
            mesh_bytes(lambda mesh: with_line(with_number(mesh, 1, 2, 2), 8, (1, 2, 3, 4, 1))),
            "element 2 has a directed side that element 1 has: from node 1 at (0, 0) to node 2 at (1, 0)",
        ),
        (
            7,
            5,
            mesh_bytes(lambda mesh: with_line(with_number(mesh, 1, 1, 5), 7, (5, 5))),
            "node 5 at (5, 5) is in no element",
        ),
        (47, 11, sheet("fan_folded"), "element 11 lies on element 5: the point (230/9, 20/3) is inside both"),
        (47, 2, sheet("bars_crossing"), "is inside both"),
        (8, 8, mesh_changed("worked", (8, 1, 4), (8, 2, 3)), "the two nodes are exchanged"),
        (8, 9, mesh_changed("worked", (9, 1, 3), (9, 2, 4)), "edge 1 (line 8) has it already"),
        (8, 8, mesh_changed("worked", (8, 1, 1), (8, 2, 3)), "no element has this side"),
        (8, 9, mesh_changed("triangle_block", (9, 1, 1), (9, 2, 4)), "it lies between the elements 2 and 1"),
        (44, 19, mesh_changed("joint_blocks", (19, 3, 7), (19, 4, 3)), "the two nodes are exchanged"),
        (44, 19, mesh_changed("joint_blocks", (19, 1, 5), (19, 2, 1)), "edge 3 has it already"),
        (44, 20, jump_twice(), "jump 1 has it already"),
        (44, 18, jump_far_away(), "node 2 at (10, 0) faces node 8 at (20, 10), which isn't the same place"),
        (42, None, mesh_changed("largest", (119, 5, 1)), "a mesh with 36 sides has at most 100"),
    ]


def claims():
    nothing = [(7, 1, 0), (8, 3, 0), (12, 1, 0), (12, 12, 0)]
    base = sheet("worked")
    return [
        (11, 1, base._replace(claim=b""), "the claim, line 1 (the header), column 1 (field there): the file is empty"),
        (11, 14, claim_bytes(lambda claim: claim + b"0"), "bytes left over: [0]"),
        (11, 7, claim_bytes(lambda claim: claim[: len(claim) // 8 * 2]), "the multipliers of"),
        (11, 22, other_claim("footing_20", "footing_12"), "it has 2 columns, as the multipliers of an element have"),
        (11, 22, other_claim("footing_20", "footing_12"), "is the claim of another mesh? This one has 35 nodes, 24"),
        (11, 22, other_claim("footing_20", "footing_12"), "the claim's lines are those of 20 nodes, 12 elements, 6"),
        (11, 56, other_claim("joint_fan_20", "joint_fan_12"), "lines are those of 26 nodes, 15 elements, 13 edges and"),
        (11, 6, other_claim("worked", "footing_field"), "the claim's lines are those of 63 nodes"),
        (11, 5, claim_bytes(lambda claim: claim[:160]), "is the claim of another mesh, or is it cut short?"),
        (11, 1, sheet("table_slope")._replace(claim=sheet("table_slope").table), "are the files in their order"),
        (12, 2, claim_changed("worked", (2, 2, -2_000_000_000)), "column 2 (sy): -2000000000, where"),
        (12, 10, claim_changed("worked", (10, 4, 10_001)), "column 4 (side 4): 10001, where 0 to 10000"),
        (13, 1, claim_changed("worked", (1, 1, 0), (1, 2, 0)), "both parts are absent"),
        (13, 1, claim_changed("worked", (1, 3, 0)), "there is a field and n is 0"),
        (13, 1, claim_changed("worked", (1, 1, 0)), "there is no field, and n or l isn't 0"),
        (21, 1, claim_changed("worked", (2, 1, 5)), "(nodes 1, 2, 3, 4): in stresses per unit of length -2.5 isn't 0"),
        (21, 3, sheet("worked_unbalanced"), "the from end of edge 1 (line 8, nodes 3 to 4): in stresses -21 isn't -20"),
        (21, 29, sheet("joint_blocks_uneven"), "the normal is -20 at node 2 and -19 at node 3"),
        (22, 1, sheet("worked_above"), "15*sx1 - 15*sy1 + 10*t1 = 15*0 - 15*(-21) + 10*0 = 315"),
        (22, 37, sheet("seam_fault"), "with soil 2, side 1 of the polygon's 12, for ground pulled most, or pressed"),
        (22, 37, sheet("seam_fault"), "least, at about 9.2 degrees from x: in stresses 30 is 20 above 10"),
        (22, 37, sheet("seam_fault"), "the plane of (sx - sy, 2t), with the normal (3, 1) at 18.43 degrees there"),
        (22, 37, sheet("seam_fault"), "By this field node 3 is pulled most, or pressed least, at 0 degrees from x"),
        (22, None, claim_changed("bedded_block_half", (1, 3, 5)), "whose normal in the ground, (4, 3)/5, is at 36.87"),
        (31, None, claim_changed("wall_passive_sand", (16, 2, 7)), "the multiplier is 7, and this row asks nothing"),
        (32, 7, sheet("worked_column"), "-29 * 1 = -29   equality row 9: normal at node 3"),
        (33, 0, claim_changed("worked", *nothing), "no row with a live load has a multiplier"),
    ]


def in_short():
    return [
        (22, 1, doubled("footing_largest_108"), "1431 of 4320 strength rows fail, of 40 pairs of node and soil; the"),
        (22, 1, doubled("footing_largest_108"), "rom x: in stresses about 19.998129 is about 9.998129 above 10"),
        (21, 1, claim_changed("worked", (2, 1, 5)), "1 of 2 balance rows fails, of 1 element; the worst is equality"),
        (32, 1, claim_changed("worked", (6, 1, 3)), "8 of 12 columns fail; the worst is column 1, sx of node 1 at"),
    ]


def accepted():
    return [
        (0, 0, sheet("worked_below"), "W*n - m*l = 600*1 - 30*19 = 30"),
        (0, 0, sheet("worked_below"), "multiplier 1, 15 to spare, in stress 0.5; 1 * 15 = 15"),
        (0, 0, sheet("bedded_unused"), "though no element has it: its rows bound the strength of some planes only"),
        (0, 0, sheet("third"), "1/3 = 0.333333 (rounded down)"),
        (0, 0, free_edge_lost(), "anything; it goes on straight as edge 5 (free): is its line forgotten?"),
    ]


def damaged():
    groups = mesh_forms, mesh_numbers, tables, meshes, claims, in_short, accepted
    return [case for group in groups for case in group()]
