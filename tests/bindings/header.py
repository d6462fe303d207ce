#!/usr/bin/env python3
"""Holds the structs, calls, numbers, words and limits of both bindings to include/pechuvo.h.

header.py program         a C program that prints the layout of every struct in the header
header.py compare LAYOUT  compares what that program printed with the structs of pechuvo.py, the calls of the header
                          with those of pechuvo.py and ffi.rs (whose structs the crate's own test compares), and its
                          numbers, their words and kinds of place and its limits with those of pechuvo.py, number.rs
                          and limits.rs

In a layout a struct has a line with its name and size, then one for each field: name, offset and type.
"""

import ctypes
import re
import sys
from pathlib import Path

ROOT = Path(__file__).resolve().parents[2]
RUST = ROOT / "bindings" / "rust" / "src"
sys.path[:0] = [str(ROOT / "bindings" / "python"), str(ROOT / "tests" / "command")]

import pechuvo
import words

# A type in C, what a layout calls it, what ctypes and Rust call it.
NUMBERS = [
    ("uint32_t", "u32", ctypes.c_uint32, "u32"),
    ("uint64_t", "u64", ctypes.c_uint64, "u64"),
    ("int64_t", "i64", ctypes.c_int64, "i64"),
    ("size_t", "u64", ctypes.c_size_t, "usize"),
    ("double", "f64", ctypes.c_double, "f64"),
]
POINTERS = [
    ("const uint8_t *", ctypes.c_void_p, "*const u8"),
    ("uint8_t *", ctypes.c_void_p, "*mut u8"),
    ("const int64_t *", ctypes.c_void_p, "*const i64"),
]


def declarations():
    """The header without comments, lines of the preprocessor, and what it works out by itself."""
    text = (ROOT / "include" / "pechuvo.h").read_text(encoding="ascii")
    text = re.sub(r"/\*.*?\*/", " ", text, flags=re.DOTALL)
    text = re.sub(r"^static inline .*?^}", "", text, flags=re.DOTALL | re.MULTILINE)
    return re.sub(r"^#(.*\\\n)*.*$", "", text, flags=re.MULTILINE)


def structs():
    """Each struct's name and the names of its fields."""
    for name, body in re.findall(r"struct (\w+) \{(.*?)\};", declarations(), flags=re.DOTALL):
        yield name, re.findall(r"(\w+);", body)


def calls():
    """Each call's name, the struct that it returns, and the types that it takes."""
    for result, name, taken in re.findall(r"struct (\w+) (\w+)\(([^)]*)\);", declarations()):
        yield name, result, [" ".join(re.sub(r"\w+$", "", part.strip()).split()) for part in taken.split(",")]


def names_of_calls():
    """The name of every call, whatever it returns."""
    return set(re.findall(r"(\w+)\(", declarations()))


def title(struct):
    """pechuvo_book_answer as BookAnswer."""
    return "".join(word.capitalize() for word in struct.split("_")[1:])


def program():
    print("#include <stddef.h>\n#include <stdio.h>\n#include \"pechuvo.h\"\n")
    names = [f"{c}: \"{told}\"" for c, told, *_ in NUMBERS if c != "size_t"]
    names += [f"struct {name}: \"{title(name).lower()}\"" for name, _ in structs()]
    print(f"#define TYPE(value) _Generic((value), {', '.join(names)})\n\nint main(void) {{")
    for name, fields in structs():
        print(f"  struct {name} {name} = {{0}};\n  printf(\"{name} %zu\\n\", sizeof {name});")
        for field in fields:
            print(f"  printf(\"{name}.{field} %zu %s\\n\", offsetof(struct {name}, {field}), TYPE({name}.{field}));")
    print("  return 0;\n}")


def python_layout():
    told = {ctype: name for _, name, ctype, _ in NUMBERS}
    for name, _ in structs():
        struct = getattr(pechuvo, "_" + title(name))
        yield f"{name} {ctypes.sizeof(struct)}"
        for field, of_type in struct._fields_:
            type_name = told.get(of_type) or of_type.__name__.strip("_").lower()
            yield f"{name}.{field} {getattr(struct, field).offset} {type_name}"


def python_calls():
    types = {c: ctype for c, _, ctype, _ in NUMBERS}
    types.update({c: ctype for c, ctype, _ in POINTERS})
    types.update({f"struct {name}": getattr(pechuvo, "_" + title(name)) for name, _ in structs()})
    return {name: (types["struct " + result], [types[c] for c in taken]) for name, result, taken in calls()}


def rust_calls():
    types = {c: rust for c, _, _, rust in NUMBERS}
    types.update({c: rust for c, _, rust in POINTERS})
    types.update({f"struct {name}": title(name) for name, _ in structs()})
    return {name: (title(result), [types[c] for c in taken]) for name, result, taken in calls()}


def declared_in_rust():
    text = (RUST / "ffi.rs").read_text(encoding="ascii")
    found = re.findall(r"fn (pechuvo_\w+)\(([^)]*)\) -> (\w+);", text)
    return {name: (result, re.findall(r": ([^,\n]+)", taken)) for name, taken, result in found}


def numbers():
    """The names of the header's enum with their numbers."""
    body = re.search(r"enum pechuvo_number \{(.*?)\};", declarations(), flags=re.DOTALL)[1]
    return {name: int(number) for name, number in re.findall(r"PECHUVO_(\w+) = (\d+)", body)}


def limits():
    """The header's constants but for the version."""
    text = (ROOT / "include" / "pechuvo.h").read_text(encoding="ascii")
    found = re.findall(r"^#define PECHUVO_(\w+) (\d+)$", text, flags=re.MULTILINE)
    return {name: int(number) for name, number in found if not name.startswith("VERSION")}


def in_rust():
    """The enum of number.rs, in the header's spelling, and its words by number."""
    text = re.sub(r"\\\n\s*", "", (RUST / "number.rs").read_text(encoding="ascii"))
    found = re.findall(r'^    (\w+) = (\d+),\s+"(.*)";$', text, flags=re.MULTILINE)
    named = {re.sub(r"(?<!^)([A-Z])", r"_\1", name).upper(): int(number) for name, number, _ in found}
    return named, {int(number): said for _, number, said in found}


def limits_in_rust():
    text = (RUST / "limits.rs").read_text(encoding="ascii")
    found = re.findall(r"^pub const (\w+): \w+ = ([\d_]+);$", text, flags=re.MULTILINE)
    return {name: int(number) for name, number in found}


def compare_numbers():
    """What differs in the numbers, their words and the limits."""
    rust, said_in_rust = in_rust()
    if {number.name: number.value for number in pechuvo.Number} != numbers() or rust != numbers():
        yield "the numbers of pechuvo.py or number.rs and the header"
    if pechuvo.WORDS != said_in_rust:
        yield "the words of pechuvo.py and number.rs"
    table = {number: (kind, said) for number, kind, said in words.header_table()}
    if sorted(table) != sorted(pechuvo.WORDS):
        yield "the numbers that have words and those of the header's table"
    for number, (kind, said) in table.items():
        if not pechuvo.WORDS.get(number, "").startswith(words.shared(said)):
            yield f"the words of {number} and the header's"
        if (pechuvo.Verdict(number, 0).kind or "none") != kind:
            yield f"the kind of place of {number} in pechuvo.py and the header"
    if {name: getattr(pechuvo, name, None) for name in limits()} != limits():
        yield "the limits of pechuvo.py and the header"
    # The bytes of a report are Report::BYTES there.
    if limits_in_rust() != {name: number for name, number in limits().items() if name != "REPORT"}:
        yield "the limits of limits.rs and the header"


def compare(layout):
    differ = list(compare_numbers())
    if layout != list(python_layout()):
        differ.append("the structs of pechuvo.py and the header")
    if names_of_calls() != {name for name, _, _ in calls()}:
        differ.append("the calls of the header that return a struct and all of them")
    if pechuvo._CALLS != python_calls():
        differ.append("the calls of pechuvo.py and the header")
    if declared_in_rust() != rust_calls():
        differ.append("the calls of ffi.rs and the header")
    for what in differ:
        print(f"DIFFER: {what}")
    print(f"{len(list(structs()))} structs, {len(list(calls()))} calls, {len(numbers())} numbers and {len(limits())} "
          "limits of the header")
    return 1 if differ else 0


if __name__ == "__main__":
    if sys.argv[1:] == ["program"]:
        program()
    elif len(sys.argv) == 3 and sys.argv[1] == "compare":
        sys.exit(compare(Path(sys.argv[2]).read_text(encoding="ascii").splitlines()))
    else:
        sys.exit(__doc__)
