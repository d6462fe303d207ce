"""Why a line of a file is refused: its form (1, 11), its numbers' limits (2, 12), 3, and the names in it (4)."""

import line_hints
import rows
from file_lines import MESH_START, length, line_at, physical_line, title, width


def shown(data, most=80):
    """Bytes so that each is seen."""
    names = {9: "<TAB>", 10: "<LF>", 13: "<CR>"}
    text = "".join(names.get(b, chr(b) if 32 <= b < 127 else f"<0x{b:02X}>") for b in data[:most])
    return f"[{text}]" + (f" and {len(data) - most} bytes more" if len(data) > most else "")


def byte_words(byte):
    names = {9: "a tab", 13: "byte 13 (CR)", 46: "a point", 44: "a comma", 43: "a plus", 0: "byte 0"}
    return names.get(byte) or (f"'{chr(byte)}'" if 32 < byte < 127 else f"byte {byte}")


def wrong_length(data, line):
    """What is said of a line that ends too early or goes on too long."""
    there = physical_line(data, line.start).rstrip(b"\n")
    columns = len(line.section.names)
    words = f"the line has {len(there)} bytes; {title(line)} has {columns} columns, {rows.WIDTH * columns} bytes"
    return words + (" and no CR" if there.endswith(b"\r") else "")


def column_fault(part):
    """What is wrong with a column's twelve bytes, or None."""
    if rows.FileLines.SPELLING.fullmatch(part) and len(part) == rows.WIDTH:
        return None
    text = part.strip(b" ")
    strange = [byte for byte in part if byte not in b" -0123456789"]
    if not part:
        return "the file ends before it"
    if strange:
        return f"{byte_words(strange[0])} in it; only digits, a minus and spaces may be"
    if len(part) < rows.WIDTH:
        return "the file ends within it"
    if not text:
        return "only spaces in it"
    if part.endswith(b" "):
        return "the number isn't right-justified: spaces follow it"
    if b" " in text:
        return "spaces within it: a minus stands directly before its digit, and a column has one number"
    if text == b"-0":
        return "a minus before zero"
    if text.lstrip(b"-").startswith(b"0"):
        return "a leading zero"
    return "a minus that isn't directly before the number's first digit"


def end_fault(data, line):
    """What is wrong with the bytes behind a line's columns."""
    end = data[line.start + width(line.section) - 1 :][:2]
    if not end:
        return "the file ends without the line's byte 10"
    if end == b"\r\n":
        return "the line ends with CR LF (a text editor of another system wrote it); byte 10 alone ends a line"
    return wrong_length(data, line)


def byte_at_fault(part):
    """The byte of a column to look at: the first that no column may have, or the column's first."""
    return next((k for k, byte in enumerate(part) if byte not in b" -0123456789"), 0)


def fault_in_line(data, line):
    """(column or None where it is the line's end, byte within the line, words) of the first fault."""
    piece = data[line.start : line.start + width(line.section)]
    for column in range(len(line.section.names)):
        start = rows.WIDTH * column
        part = piece[start : start + rows.WIDTH]
        if b"\n" in part:
            return column + 1, start + part.index(b"\n"), wrong_length(data, line)
        words = column_fault(part)
        if words:
            return column + 1, start + byte_at_fault(part), words
    return None, width(line.section) - 1, end_fault(data, line)


def form_reason(file, data, sections, number, first):
    """Why the form is refused at a line: the line, the column, the bytes, what was expected."""
    line = line_at(sections, number, first)
    if line is None:
        return leftover_reason(file, data, sections, number)
    column, byte, words = fault_in_line(data, line)
    there = physical_line(data, line.start)
    names = line.section.names
    if column:
        name = f", column {column} ({names[column - 1]})"
        told = [f"column {column}: {shown(there[rows.WIDTH * (column - 1) : rows.WIDTH * column])}"]
    else:
        name, told = "", [f"behind the columns: {shown(there[byte:], 40)}"]
    listed = ", ".join(names[:10]) + (", .." if len(names) > 10 else "")
    expected = f"expected: {len(names)} columns of 12 characters, each a whole number right-justified in spaces"
    told += [f"the line: {shown(there, 140)}", f"{expected} ({listed}), then byte 10"]
    told.append(f"byte {byte + 1} of the line, byte {line.start + byte + 1} of the file")
    return {
        "what": f"{file}, line {number} ({title(line)}){name}: {words if data else 'the file is empty'}",
        "line": number,
        "column": column,
        "byte_of_line": byte + 1,
        "byte_of_file": line.start + byte + 1,
        "bytes": shown(there, 140),
        "words": [*told, *line_hints.of_line(file, data, sections, line)],
    }


def leftover_reason(file, data, sections, number):
    """Bytes behind the last line."""
    end = length(sections)
    rest = data[end:]
    counts = ", ".join(f"{section.what.removeprefix('the ')} {section.count}" for section in sections if section.count)
    words = [
        f"bytes left over: {shown(rest)}",
        f"expected: nothing behind byte {end}; the lines by kind: {counts}",
    ]
    if not rest.strip(b" \r\n\t\x1a"):
        words.append("they are white space only: an empty line or spaces at the end of the file")
    elif file == "the claim":
        words += line_hints.of_claim(data, sections)
    return {
        "what": f"{file}, line {number}: bytes are left over behind the last line, {len(rest)} in all",
        "line": number,
        "column": None,
        "byte_of_line": 1,
        "byte_of_file": end + 1,
        "bytes": shown(rest),
        "words": words,
    }


def allowed(limits):
    """What a column may hold, in words."""
    if isinstance(limits, range):
        return f"{limits[0]} to {limits[-1]}"
    numbers = [str(number) for number in limits]
    return ", ".join(numbers[:-1]) + " or " + numbers[-1]


def numbers_of(data, line):
    piece = data[line.start : line.start + width(line.section) - 1]
    return [int(piece[k : k + rows.WIDTH]) for k in range(0, len(piece), rows.WIDTH)]


def limit_reasons(file, data, sections, number, first):
    """Each number of the line that is outside its limits; else what of the line doesn't go with 108 sides."""
    line = line_at(sections, number, first)
    numbers = numbers_of(data, line)
    where = f"{file}, line {number} ({title(line)})"
    outside = [
        (column + 1, found, limits)
        for column, (found, limits) in enumerate(zip(numbers, line.section.limits))
        if not isinstance(limits, str) and found not in limits
    ]
    for column, found, limits in outside:
        name = line.section.names[column - 1]
        yield {
            "what": f"{where}, column {column} ({name}): {found}, where {allowed(limits)} may be",
            "line": number,
            "column": column,
            "value": found,
            "words": list(many_sides_words(limits)),
        }
    if not outside and line.section == MESH_START:
        words = f"{where}: {numbers[0]} nodes, where a mesh with 108 sides has at most 40"
        yield {"what": words, "line": number, "column": 1, "value": numbers[0], "words": []}
    elif not outside:
        words = f"{where}, column 9 (kind): 1, where a mesh with 108 sides has soils of kind 0 alone"
        yield {"what": words, "line": number, "column": 9, "value": 1, "words": []}


def many_sides_words(limits):
    if limits == rows.STRENGTH_MULTIPLIER_MANY:
        yield "a mesh with 108 sides has strength multipliers up to 300; with fewer sides they may be up to 10000"


def friction_reason(file, data, sections, number):
    p, q, h = numbers_of(data, line_at(sections, number, 1))[:3]
    return {
        "what": f"{file}, line {number} ({title(line_at(sections, number, 1))}): p^2 + q^2 isn't h^2",
        "line": number,
        "words": [
            f"p*p + q*q = {p}*{p} + {q}*{q} = {p * p + q * q}",
            f"h*h = {h}*{h} = {h * h}, so they differ by {p * p + q * q - h * h}",
            "the friction angle has sine p/h and cosine q/h: 0 1 1 is none, 3 4 5 has sine 0.6, 5 12 13 sine 0.384615",
        ],
    }


def name_reasons(file, data, sections, number, first, mesh_counts, with_table):
    """Each name of a node or soil that isn't there."""
    line = line_at(sections, number, first)
    for column, (found, limits) in enumerate(zip(numbers_of(data, line), line.section.limits)):
        if not isinstance(limits, str):
            continue
        most = mesh_counts[limits]
        may_be_0 = with_table and limits == rows.SOIL and first == 1
        if found in range(0 if may_be_0 else 1, most + 1):
            continue
        name = line.section.names[column]
        where = f"{file}, line {number} ({title(line)}), column {column + 1} ({name})"
        words = [f"the mesh has {limits}s 1 to {most}"]
        if found == 0 and limits == rows.SOIL and first == 1:
            words.append("soil 0 takes the soil of a borehole table, and no table was handed over (a third file)")
        yield {
            "what": f"{where}: {limits} {found} isn't there",
            "line": number,
            "column": column + 1,
            "value": found,
            "words": words,
        }
