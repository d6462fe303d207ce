"""What to look at first where a claim fails in many places: how many rows or columns of each kind fail, and the worst
of them. Rows are compared by what they are off by in stresses, columns by their sums."""

from fractions import Fraction

# Whose rows they are, for one and for several.
OWNERS = {
    "balance": ("element", "elements"),
    "side": ("edge", "edges"),
    "jump": ("jump", "jumps"),
    "strength": ("pair of node and soil", "pairs of node and soil"),
}
MEMBERS = {"balance": "element", "side": "edge", "jump": "jump", "strength": "pair"}


def told(refusal, words, **figures):
    return {"refusal": refusal, **figures, "what": words, "words": []}


def off_by(reason):
    return abs(Fraction(reason["difference_stress"]))


def row_summaries(all_rows, found):
    """21 and 22 by kinds of rows."""
    for kind in OWNERS:
        failing = [reason for reason in found if reason["refusal"] in (21, 22) and reason["row_kind"] == kind]
        if failing:
            asked = sum(row.kind == kind and row.fixed for row in all_rows)
            owners = len({reason[MEMBERS[kind]] for reason in failing})
            worst = max(failing, key=off_by)
            of = f"{owners} {OWNERS[kind][owners > 1]}"
            fail = "fails" if len(failing) == 1 else "fail"
            words = f"{len(failing)} of {asked} {kind} rows {fail}, of {of}; the worst is {worst['what']}"
            place = {member: worst[member] for member in ("row_kind", "row", "difference_stress")}
            yield told(worst["refusal"], words, failing=len(failing), of=asked, **place)


def multiplier_summaries(columns, found):
    """31 and 32; 33 is one column alone."""
    unfixed = [reason for reason in found if reason["refusal"] == 31]
    if unfixed:
        worst = max(unfixed, key=lambda reason: abs(reason["multiplier"]))
        words = f"{len(unfixed)} multipliers other than 0 where rows ask nothing; the greatest at {worst['what']}"
        place = {member: worst[member] for member in ("row_kind", "row", "multiplier")}
        yield told(31, words, failing=len(unfixed), **place)
    uneven = [reason for reason in found if reason["refusal"] == 32]
    if uneven:
        worst = max(uneven, key=lambda reason: abs(reason["sum"]))
        fail = "fails" if len(uneven) == 1 else "fail"
        words = f"{len(uneven)} of {columns} columns {fail}; the worst is {worst['what']}"
        place = {member: worst[member] for member in ("column", "sum")}
        yield told(32, words, failing=len(uneven), of=columns, **place)
    yield from (told(33, reason["what"], failing=1) for reason in found if reason["refusal"] == 33)


def summary(mesh, all_rows, found):
    """Of a claim's reasons, where there are several."""
    if len(found) < 2:
        return []
    return [*row_summaries(all_rows, found), *multiplier_summaries(3 * len(mesh.nodes), found)]
