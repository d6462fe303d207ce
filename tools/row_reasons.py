"""A row's two sides written out, and why rows and multipliers are refused (21, 22, 31, 32, 33); for an accepted claim
its open rows. Whole numbers are the row's own; stresses are those over the row's divisor and n."""

import math
from fractions import Fraction

import rows
from mesh_reasons import node_words, twice_area
from row_names import AXES, PARTS, degrees, place_of, plane_corner, polygon_side, row_name, row_words, side_normal

STRESSES = "sx", "sy", "t"
FIXED = {1: "its normal alone", 2: "its shear alone", 3: "both"}


def decimal(number, places=6):
    """A fraction in decimals, 'about' where they aren't all of it; a small one with its first three digits."""
    while number and abs(number) * 10**places < 100 and Fraction(number) * 10**places % 1:
        places += 1
    scaled = round(Fraction(number) * 10**places)
    digits = f"{abs(scaled):0{places + 1}d}"
    text = f"{digits[:-places]}.{digits[-places:]}".rstrip("0").rstrip(".")
    exact = Fraction(scaled, 10**places) == number
    return ("" if exact else "about ") + ("-" if scaled < 0 else "") + text


def signed_sum(parts):
    """Terms, each with its coefficient in front, joined by their signs."""
    text = " ".join(f"{'-' if coefficient < 0 else '+'} {abs(coefficient)}*{value}" for coefficient, value in parts)
    return text[2:] if text.startswith("+") else text.replace("- ", "-", 1)


def written_out(terms):
    """A sum of (coefficient, name, value): by its names, in numbers, and what it comes to."""
    terms = [term for term in terms if term[0]]
    if not terms:
        return "0"
    names = signed_sum([(c, name) for c, name, _ in terms])
    numbers = signed_sum([(c, value if value >= 0 else f"({value})") for c, _, value in terms])
    return f"{names} = {numbers} = {sum(c * value for c, _, value in terms)}"


def stress_name(column):
    return f"{STRESSES[column % 3]}{column // 3 + 1}"


def left_terms(row, claim):
    return [(c, stress_name(k), claim.stresses[k]) for k, c in sorted(row.entries.items())]


def right_terms(row, claim):
    """The right side, with l where the papers have it."""
    return [(row.right, "n", claim.n), (-row.live, "l", claim.l)]


def total(terms):
    return sum(c * value for c, _, value in terms)


# In stresses


def side_size(mesh, start, end):
    u, w = rows.step_of(mesh, start, end)
    return u * u + w * w


def divisor(mesh, row):
    """(what a row's whole numbers are divided by, with n, to be stresses; its words)."""
    if row.kind == "balance":
        element = mesh.elements[row.of[0]]
        size = twice_area([mesh.nodes[node] for node in rows.corners_of(element)])
        return size, "D, twice the element's area"
    if row.kind in ("side", "jump"):
        start, end = (mesh.edges if row.kind == "side" else mesh.jumps)[row.of[0]][:2]
        return side_size(mesh, start, end), "u*u + w*w, the side's length squared"
    soil, k = mesh.soils[row.of[1]], row.of[2]
    if soil.kind:
        return soil.q * rows.radius(mesh.sides) ** 2, "q*r*r"
    (a, b), (c, d) = polygon_side(mesh, k)
    return 2 * soil.h * (a * d - b * c), "2*h*(ad - bc)"


def product(*factors):
    """Factors and what they come to."""
    written = "*".join(str(factor) if factor >= 0 else f"({factor})" for factor in factors)
    return f"{written} = {math.prod(factors)}"


def pulled_most(sx, sy, t):
    """The direction in the ground in which stresses pull most, or press least, in words."""
    if sx == sy and not t:
        return "alike in every direction"
    return f"most, or pressed least, at {degrees(sx - sy, 2 * t, 2)} from x"


def polygon_words(mesh, row, claim):
    """The side lies in the plane of (sx - sy, 2t), where an angle is twice the one in the ground."""
    node, soil_number, k = row.of
    soil, r = mesh.soils[soil_number], rows.radius(mesh.sides)
    (a, b), (c, d) = polygon_side(mesh, k)
    cross, normal = a * d - b * c, side_normal(mesh, k)
    yield (
        f"side {k + 1} goes from ({a}, {b}) to ({c}, {d}) in the plane of (sx - sy, 2t), with the normal {normal} at"
        f" {degrees(*normal)} there; an angle there is twice the one in the ground. By this field node {node + 1} is"
        f" pulled {pulled_most(*claim.stresses[3 * node : 3 * node + 3])}"
    )
    yield (
        f"coefficients: p {soil.p}, q {soil.q}, h {soil.h}, cohesion {soil.cohesion};"
        f" r*h*(d - b) = {product(r, soil.h, d - b)}, 2*r*h*(c - a) = {product(2, r, soil.h, c - a)},"
        f" p*(ad - bc) = {product(soil.p, cross)}, right 2*q*cohesion*(ad - bc)"
        f" = {product(2, soil.q, soil.cohesion, cross)}"
    )
    sx, sy = (Fraction(claim.stresses[3 * node + axis], claim.n) for axis in (0, 1))
    friction = Fraction(soil.p, soil.h) * (sx + sy) / 2
    left = Fraction(total(left_terms(row, claim)), divisor(mesh, row)[0] * claim.n)
    yield (
        f"the radius of the stress circle as this side measures it is {decimal(left - friction)}; p/h times the mean"
        f" stress is {decimal(friction)}; together at most cohesion times q/h,"
        f" {decimal(Fraction(soil.cohesion * soil.q, soil.h))}"
    )


def plane_words(mesh, row, claim):
    node, soil_number, k = row.of
    soil, r = mesh.soils[soil_number], rows.radius(mesh.sides)
    a, b = plane_corner(mesh, k)
    yield (
        f"coefficients: p {soil.p}, q {soil.q}, N = a*a*sx + 2*a*b*t + b*b*sy, T = a*b*(sy - sx) + (a*a - b*b)*t;"
        f" right q*(r*r*ch + (cv - ch)*a*a)"
        f" = {soil.q}*({r}*{r}*{soil.cohesion} + ({soil.cv} - {soil.cohesion})*{a * a}) = {row.right}"
    )
    sx, sy, t = (Fraction(stress, claim.n) for stress in claim.stresses[3 * node : 3 * node + 3])
    normal = (a * a * sx + 2 * a * b * t + b * b * sy) / (r * r)
    shear = (a * b * (sy - sx) + (a * a - b * b) * t) / (r * r)
    cohesion = soil.cohesion + Fraction((soil.cv - soil.cohesion) * a * a, r * r)
    yield (
        f"on this plane the normal stress is {decimal(normal)} and the shear {decimal(shear)}; the cohesion is"
        f" {soil.cohesion} along and {soil.cv} across the beds, {decimal(cohesion)} here, and p/q is {soil.p}/{soil.q}"
    )


def traction_words(mesh, start, end, part):
    """How a side's coefficients come from its step."""
    u, w = rows.step_of(mesh, start, end)
    if part == 0:
        return f"coefficients: step ({u}, {w}); w*w = {w * w}, -2*u*w = {-2 * u * w}, u*u = {u * u} of sx, t, sy"
    return f"coefficients: step ({u}, {w}); u*w = {u * w} of sx, -u*w of sy, w*w - u*u = {w * w - u * u} of t"


def jump_side_words(mesh, row, claim):
    number, end, part = row.of
    jump = mesh.jumps[number]
    yield traction_words(mesh, jump.start, jump.end, part)
    size = side_size(mesh, jump.start, jump.end)
    values = []
    for node in (jump[end], jump[end + 2]):
        entries = rows.traction(rows.step_of(mesh, jump.start, jump.end), node)[part]
        value = Fraction(sum(c * claim.stresses[k] for k, c in entries.items()), size * claim.n)
        values.append(f"{decimal(value)} at node {node + 1}")
    yield f"the {PARTS[part]} is " + " and ".join(values)


def balance_words(mesh, row, claim):
    number, axis = row.of
    soil = mesh.soils[mesh.elements[number].soil]
    yield "coefficients: at each corner y of the next less y of the last, and x of the last less x of the next"
    yield (
        f"the stresses' change in the direction {AXES[axis]} must be minus the force of soil"
        f" {mesh.elements[number].soil + 1}, dead {soil.dead[axis]} and live {soil.live[axis]} times l/n"
    )


def edge_side_words(mesh, row, claim):
    number, _, part = row.of
    edge = mesh.edges[number]
    yield traction_words(mesh, edge.start, edge.end, part)
    yield f"the edge's line asks a {PARTS[part]} of dead {edge.dead[part]} and live {edge.live[part]} times l/n"


def detail_words(mesh, row, claim):
    """Where a row's coefficients come from, and what it says of the stresses."""
    if row.kind == "strength":
        words = plane_words if mesh.soils[row.of[1]].kind else polygon_words
    else:
        words = {"balance": balance_words, "side": edge_side_words, "jump": jump_side_words}[row.kind]
    return words(mesh, row, claim)


def two_sides(mesh, row, claim):
    """A row's two sides for a field, in whole numbers, written out, and in stresses."""
    left, right = left_terms(row, claim), right_terms(row, claim)
    by, by_words = divisor(mesh, row)
    unit = "in stresses per unit of length" if row.kind == "balance" else "in stresses"
    left_stress, right_stress = (Fraction(total(side), by * claim.n) for side in (left, right))
    relation = "at most the right" if row.kind == "strength" else "the right"
    return {
        "row_kind": row.kind,
        "row": row.number,
        **place_of(mesh, row),
        "left": total(left),
        "right": total(right),
        "difference": total(left) - total(right),
        "left_written_out": written_out(left),
        "right_written_out": written_out(right),
        "divisor": by,
        "left_stress": str(left_stress),
        "right_stress": str(right_stress),
        "difference_stress": str(left_stress - right_stress),
        "words": [
            f"left   {written_out(left)}",
            f"right  {written_out(right)}",
            f"the left must be {relation}; left less right is {total(left) - total(right)}",
            f"{unit}, over {by_words}, times n = {by}*{claim.n}: left {decimal(left_stress)}, right"
            f" {decimal(right_stress)}, left less right {decimal(left_stress - right_stress)}",
            *detail_words(mesh, row, claim),
        ],
    }


# Refusals


def off_words(refusal, sides):
    """By how much a row fails, in stresses."""
    left, right, difference = (decimal(Fraction(sides[f"{part}_stress"])) for part in ("left", "right", "difference"))
    unit = "in stresses per unit of length" if sides["row_kind"] == "balance" else "in stresses"
    if refusal == 21:
        return f"{unit} {left} isn't {right}, off by {difference}"
    return f"{unit} {left} is {difference} above {right}"


def failing_reasons(mesh, all_rows, claim):
    """21, then 22: each row that the field doesn't meet."""
    for refusal, row in rows.failing(all_rows, claim):
        sides = two_sides(mesh, row, claim)
        what = f"{row_name(row)}: {row_words(mesh, row)}: {off_words(refusal, sides)}"
        yield {"refusal": refusal, "what": what, **sides}


def unfixed_reasons(mesh, all_rows, multipliers):
    """31: each multiplier other than 0 on a row that asks nothing."""
    for row, y in zip(all_rows, multipliers):
        if y and not row.fixed:
            edge = mesh.edges[row.of[0]]
            yield {
                "refusal": 31,
                "what": f"{row_name(row)}: {row_words(mesh, row)}: the multiplier is {y}, and this row asks nothing",
                "row_kind": row.kind,
                "row": row.number,
                **place_of(mesh, row),
                "multiplier": y,
                "words": [
                    f"the edge's line has {edge.fixed} in its third column, so it fixes {FIXED[edge.fixed]}; the"
                    " multiplier of the other part is 0"
                ],
            }


def product_words(mesh, row, y, coefficient):
    factor = coefficient if coefficient >= 0 else f"({coefficient})"
    return f"{y} * {factor} = {y * coefficient}   {row_name(row)}: {row_words(mesh, row)}"


def term_of(row, y, coefficient):
    parts = {"row_kind": row.kind, "row": row.number, "multiplier": y, "coefficient": coefficient}
    return parts | {"product": y * coefficient}


def column_reasons(mesh, all_rows, multipliers):
    """32: each column whose sum isn't 0, with every term."""
    sums = rows.column_sums(all_rows, multipliers, 3 * len(mesh.nodes))
    m = rows.load_sum(all_rows, multipliers)
    for column, found in enumerate(sums):
        if not found:
            continue
        held = [(row, y) for row, y in zip(all_rows, multipliers) if y and row.entries.get(column)]
        terms = [(row, y, row.entries[column]) for row, y in held]
        share = f"{found}/{m}, {decimal(Fraction(found, m))}, of m" if m > 0 else f"and m is {m}"
        yield {
            "refusal": 32,
            "what": f"column {column + 1}, {STRESSES[column % 3]} of {node_words(mesh, column // 3)}: the sum is"
            f" {found}, not 0",
            "column": column + 1,
            "node": column // 3 + 1,
            "stress": STRESSES[column % 3],
            "sum": found,
            "terms": [term_of(*term) for term in terms],
            "words": [
                "multiplier * coefficient, over all rows:",
                *(product_words(mesh, *term) for term in terms),
                f"sum {found}: {share}",
            ],
        }


def load_reasons(mesh, all_rows, multipliers):
    """33: m with its terms, where it is 0 or less."""
    m = rows.load_sum(all_rows, multipliers)
    if m > 0:
        return
    terms = [(row, y, row.live) for row, y in zip(all_rows, multipliers) if y and row.live]
    words = ["multiplier * coefficient of l (moved to the left), over all rows:"]
    words += [product_words(mesh, *term) for term in terms] or ["no row with a live load has a multiplier"]
    yield {
        "refusal": 33,
        "what": f"the column of l: m is {m}, not above 0",
        "column": 0,
        "sum": m,
        "terms": [term_of(*term) for term in terms],
        "words": [*words, f"m = {m}; the limit W/m needs m above 0"],
    }


def claim_reasons(mesh, all_rows, claim):
    """Every reason of a field and of multipliers, in the order of the refusals."""
    if claim.stresses is not None:
        yield from failing_reasons(mesh, all_rows, claim)
    if claim.multipliers is not None:
        for reasons in (unfixed_reasons, column_reasons, load_reasons):
            yield from reasons(mesh, all_rows, claim.multipliers)


# Accepted


def open_row_reasons(mesh, all_rows, claim):
    """Each open row, with its multiplier and its strength to spare."""
    multiplier_of = {row.number: y for row, y in zip(all_rows, claim.multipliers) if row.kind == "strength"}
    for row in rows.open_rows(all_rows, claim):
        y, spare = multiplier_of[row.number], rows.spare(row, claim)
        sides = two_sides(mesh, row, claim)
        in_stress = Fraction(spare, sides["divisor"] * claim.n)
        yield {
            "what": f"{row_name(row)}: {row_words(mesh, row)}: multiplier {y}, {spare} to spare, in stress"
            f" {decimal(in_stress)}; {y} * {spare} = {y * spare}",
            **sides,
            "multiplier": y,
            "spare": spare,
            "spare_stress": str(in_stress),
        }
