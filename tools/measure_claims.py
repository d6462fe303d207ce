#!/usr/bin/env python3
"""Measures claim_from_solver.py on random meshes of every kind: measure_claims.py COUNT [--part PART] [--seconds S].
With --only WORDS, only on those that are counted under these words, such as "61 to 100 nodes".

A line for each mesh, then for each kind how many parts were made, how many within 0.1 % of the solver's optimum, of
how many fields an integer search tells that the limits leave none so near, and the middle and the worst distance.
Every claim goes through rows.py and, where it is built, through the archive. Meshes on which nothing or anything is
carried are left out and counted."""

import argparse
import random
import time
from statistics import median

import archive
import claim_from_solver
import glpsol
import rows as exact
from random_meshes import FORMS, SHAPES, SIDES, SOILS, Kind, random_mesh

NEAR = 1e-3
NOTHING = 1e-6  # a load below this is none
RULED_OUT = "which finds none within"  # what a field's warning says then


def kind_of(number):
    """Kinds in turn, all 180 once before any comes again; sizes and steps by chance, 12 to 100 nodes."""
    chance = random.Random(number)
    shape, form = SHAPES[number % 3], FORMS[number // 3 % 3]
    soils, sides = SOILS[number % 5], SIDES[number % 4]
    if soils == "bedded" and sides == 108:
        sides = 36
    columns, rows = chance.choice([(4, 3), (5, 5), (6, 5), (7, 6), (8, 7), (9, 9)])
    if sides == 108:
        columns, rows = chance.randint(4, 5), chance.randint(3, 5)
    step = chance.choice([(2, 5), (6, 20), (6, 20), (20, 60)])
    return Kind(shape, soils, form, sides, columns, rows, step)


def words_of(kind, nodes):
    """The kinds that a mesh is counted under."""
    size = "12 to 30 nodes" if nodes <= 30 else "31 to 60 nodes" if nodes <= 60 else "61 to 100 nodes"
    steps = {2: "steps of 2 to 5", 6: "steps of 6 to 20", 20: "steps of 20 to 60"}[kind.step[0]]
    return ["all", kind.shape, kind.soils, kind.form, f"{kind.sides} sides", size, steps]


def measured(texts, mesh, rows, part, seconds):
    """(field's distance, multipliers' distance, warnings), None for what wasn't made, or None where the mesh is no
    use."""
    try:
        load = glpsol.solve(rows, 3 * len(mesh.nodes)).load
    except glpsol.NoOptimum:
        return None
    if abs(load) < NOTHING:
        return None
    claim, _, warnings = claim_from_solver.make_claim(mesh, rows, part, seconds=seconds)
    away = [None, None]
    if claim.stresses:
        away[0] = claim_from_solver.distance(claim.l / claim.n, load)
    if claim.multipliers:
        limit = claim_from_solver.whole_multipliers.limit(rows, claim.multipliers)
        away[1] = claim_from_solver.distance(float(limit), load)
    if claim.stresses or claim.multipliers:
        claim_from_solver.checked(*texts, exact.text_of(exact.claim_lines(mesh, claim)))
    return *away, warnings


def told(distances):
    made = [away for away in distances if away is not None]
    near = sum(away <= NEAR for away in made)
    figures = f"{median(made):9.1e} {max(made):9.1e}" if made else f"{'-':>9} {'-':>9}"
    return f"{len(made):5d} {near:5d} {figures}"


def main():
    parser = argparse.ArgumentParser(description=__doc__, formatter_class=argparse.RawDescriptionHelpFormatter)
    parser.add_argument("count", type=int)
    parser.add_argument("--part", choices=("field", "multipliers", "both"), default="both")
    parser.add_argument("--seconds", type=int, default=20)
    parser.add_argument("--first", type=int, default=0, help="the number of the first mesh")
    parser.add_argument("--only", default="all", help="the words of the meshes that are measured")
    words = parser.parse_args()
    print("checked by", "rows.py and the archive" if archive.library() else "rows.py", flush=True)
    counted, left_out = {}, 0
    for number in range(words.first, words.first + words.count):
        kind, begun = kind_of(number), time.time()
        texts = [exact.text_of(lines) for lines in random_mesh(kind, number)]
        mesh, rows = exact.judged_mesh(*exact.mesh_files(*texts))
        kinds = words_of(kind, len(mesh.nodes))
        found = measured(texts, mesh, rows, words.part, words.seconds) if words.only in kinds else None
        if found is None:
            left_out += words.only in kinds
            continue
        *away, warnings = found
        took = f"{time.time() - begun:.0f} s"
        print(number, *kind[:6], *kind.step, len(mesh.nodes), *away, took, *warnings, flush=True)
        for word in kinds:
            counted.setdefault(word, []).append((*away, any(RULED_OUT in warning for warning in warnings)))
    print(f"\n{left_out} left out\n{'kind':20} meshes, ruled out | fields: made, near, middle, worst | multipliers")
    for word, found in counted.items():
        fields, multipliers, ruled_out = zip(*found)
        print(f"{word:20} {len(found):6d} {sum(ruled_out):6d} | {told(fields)} | {told(multipliers)}")


if __name__ == "__main__":
    main()
