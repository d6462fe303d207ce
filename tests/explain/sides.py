"""Outer sides without an edge line: which of them explain.py asks about, which it calls meant, and in what order."""

import os

from held import SHEETS, hold, mesh_changed, sheet

import rows
import unlined_sides

# Sheets with level ground that is left without a line on purpose.
ASKED = {"lowest_limit", "one_in_three_million", "widest_108", "widest_limit"}
# Sheets whose free ground is off the bottom and the flanks.
FREE = "footing_12", "footing_largest_36", "cut_12", "cut_sand", "slope_clay_20", "slope_steep", "table_slope"


def mesh_of(files):
    return rows.mesh_of(*rows.mesh_files(files.mesh, files.table))


def without(mesh, number):
    return mesh._replace(edges=mesh.edges[:number] + mesh.edges[number + 1 :])


def hold_no_false_alarm():
    for name in sorted(name[:-5] for name in os.listdir(SHEETS) if name.endswith(".mesh")):
        try:
            mesh = rows.judged_mesh(*rows.mesh_files(sheet(name).mesh, sheet(name).table))[0]
        except rows.Refused:
            continue
        asked = [side["what"] for side in unlined_sides.unlined_reasons(mesh) if side["question"]]
        hold(bool(asked) == (name in ASKED), f"{name}: asked {asked}")


def hold_each_forgotten():
    """Each free edge of these, left out, is asked about, before all that isn't."""
    for name in FREE:
        mesh = mesh_of(sheet(name))
        for number, edge in enumerate(mesh.edges):
            if edge.fixed == 3 and not any(edge.dead + edge.live):
                told = unlined_sides.unlined_reasons(without(mesh, number))
                here = [side for side in told if side["side"] == [edge.start + 1, edge.end + 1]]
                hold(len(here) == 1 and here[0]["question"], f"{name}: edge {number + 1} forgotten, {here}")
                questions = [side["question"] for side in told]
                hold(questions == sorted(questions, reverse=True), f"{name}: edge {number + 1}, questions aren't first")


def hold_words():
    footing = mesh_of(sheet("footing_12"))
    whole = unlined_sides.unlined_reasons(footing)
    hold("edge 5 (free) and edge 3 (loaded), which can't share" in whole[0]["what"], f"meant: {whole[0]}")
    hold(not any(side["question"] for side in whole), f"meant: {whole}")
    two = unlined_sides.unlined_reasons(without(footing, 4))
    hold([side["question"] for side in two].count(True) == 2, f"two sides in a row: {two}")
    hold("2 such sides between edge 5 (free) and edge 3 (loaded)" in two[0]["what"], f"two in a row: {two[0]}")
    alike = unlined_sides.unlined_reasons(without(mesh_of(sheet("cut_12")), 5))
    words = "it goes on straight as edge 4 (free): is its line forgotten?"
    hold(words in alike[0]["what"], f"between edges of one kind: {alike[0]}")


def hold_reversed():
    """A side that an edge names in reverse has its line."""
    mesh = mesh_of(mesh_changed("worked", (8, 1, 4), (8, 2, 3)))
    sides = [side["side"] for side in unlined_sides.unlined_reasons(mesh)]
    hold(sides == [[1, 2]], f"an edge in reverse: {sides}")


def hold_sides():
    hold_no_false_alarm()
    hold_each_forgotten()
    hold_words()
    hold_reversed()
