#!/usr/bin/env python3
# Spells the project's own names of definitions, fields and lemmas as CONTRACT_STYLE.md of the kit says: words in snake
# case, types and modules in camel case, a dash only between two names. Run once at the top of the repository, after
# the kit's port.py, and once only. Functions of src/, exported names, strings, inputs and outputs keep
# their names. With --list it prints each name, old and new, and changes nothing.
import glob
import re
import sys

TOKEN = re.compile(r"[^\s(){};,.«»`\"|\[\]@]+")
# Names that are respelled otherwise.
KEPT = {}
# Lemmas that port.py has spelled as the function that they speak of will be: file and name.
LEMMAS = {
    "crates/integer/proofs/DecimalLaws.antt": ["is_digit"],
    "crates/layers/proofs/NamingLaws.antt": ["all_named"],
    "crates/layers/proofs/filling/name_soils/Proof.antt": ["all_named"],
    "crates/reader/proofs/Form.antt": ["group_at"],
    "crates/scope/proofs/Bracket.antt": ["is_open"],
    "crates/scope/proofs/Decides.antt": ["some_below"],
    "crates/scope/proofs/Layers.antt": ["some_below"],
    "crates/scope/proofs/NumberRanges.antt": ["from_one"],
    "crates/scope/proofs/Parts.antt": ["is_open"],
    "crates/scope/proofs/Statements.antt": ["all_named", "same_point", "some_below"],
    "crates/scope/proofs/SumBounds.antt": ["side_right"],
}


def code_and_comment(line):
    found = re.search(r"(?:^|(?<=\s))--(?=\s|$|-)", line)
    return (line[: found.start()], line[found.start():]) if found else (line, "")


def is_name(part, declared):
    return part in declared or not re.search(r"[a-z]", part) or re.match(r"[A-Z]", part) is not None


def snake(part):
    if not re.match(r"[a-z]", part):
        return part
    part = part.replace("negℤ", "neg_ℤ")
    out = re.sub(r"(?<=[a-z0-9ℤ'])([A-Z])(?=[a-z0-9']|$|_)", lambda m: "_" + m.group(1).lower(), part)
    return out


def respelled(token, declared):
    if token in KEPT:
        return KEPT[token]
    if re.match(r"[0-9]", token) or token.startswith("Need-"):
        return token
    parts = re.split(r"(?<=[^\s-])-(?=[^\s>])", token)
    out = snake(parts[0])
    for left, right in zip(parts, parts[1:]):
        joined = re.match(r"[A-Z]", left) or (is_name(left, declared) and is_name(right, declared))
        out += ("-" if joined else "_") + snake(right)
    return out


def mapping(files):
    tokens = set()
    everywhere = set()
    library = set()
    crates = {name.split("/")[1] for name in files}
    declared = set("length map drop take append replicate suc".split())
    for name in files:
        if not name.endswith(".antt"):
            continue
        for line in open(name):
            code, _ = code_and_comment(line)
            tokens.update(TOKEN.findall(code))
            used = re.match(r"\s*use ([^{]*)\.\{(.*)\}", code)
            if used and used.group(1).split(".")[:1] != ["Rattle"]:
                library.update(part.split(" as ")[0].strip() for part in used.group(2).split(","))
            elif used and used.group(1).split(".")[1] not in crates:
                library.update(part.split(" as ")[0].strip() for part in used.group(2).split(","))
            found = re.match(r"\s*(?:(?:abbrev|unfoldable|pub)\s+)*([^\s:]+) :", code)
            if found and not name.endswith("Proof.antt"):
                everywhere.add(found.group(1))
                if "/specs/" in name and re.match(r"(abbrev|unfoldable) ", code):
                    declared.add(found.group(1))
    names = {t: respelled(t, declared) for t in tokens - library if respelled(t, declared) != t}
    # A lemma that would have its function's name gets `_lem`.
    functions = {names.get(t, t) for t in everywhere if "-" not in t}
    for old in names:
        if "-" in old and old in everywhere and names[old] in functions and old not in KEPT:
            names[old] += "_lem"
    return names, everywhere


def turn(text, names):
    return TOKEN.sub(lambda m: names.get(m.group(0), m.group(0)), text)


def turn_comment(text, names):
    return re.sub(r"`[^`\n]*`", lambda m: turn(m.group(0), names), text)


def turn_antt(text, names):
    out = []
    for line in text.split("\n"):
        code, comment = code_and_comment(line)
        out.append(turn(code, names) + turn_comment(comment, names))
    return "\n".join(out)


def turn_rt(text, names):
    camel = {old: new for old, new in names.items()}
    out = []
    for line in text.split("\n"):
        if line.lstrip().startswith("//"):
            out.append(turn_comment(line, names))
        else:
            out.append(re.sub(r"\"[^\"]*\"|" + TOKEN.pattern, lambda m: camel.get(m.group(0), m.group(0)), line))
    return "\n".join(out)


def main():
    files = sorted(
        glob.glob("crates/*/specs/**/*.antt", recursive=True)
        + glob.glob("crates/*/proofs/**/*.antt", recursive=True)
        + glob.glob("crates/*/src/**/*.rt", recursive=True)
    )
    names, declared = mapping(files)
    if "--list" in sys.argv:
        for old in sorted(names):
            print(old, names[old], "TAKEN" if names[old] in declared else "")
        return
    if not names:
        return
    for name in files:
        text = open(name).read()
        here = dict(names, **{lemma: lemma + "_lem" for lemma in LEMMAS.get(name, [])})
        new = turn_antt(text, here) if name.endswith(".antt") else turn_rt(text, here)
        if new != text:
            open(name, "w").write(new)


if __name__ == "__main__":
    main()
