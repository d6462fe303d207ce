"""words.py TOLD: what the command says of each number (words.c) is what the header and the manual page have."""
import os
import re
import sys

from program import ROOT, agree, fail

UNKNOWN = "a number that this command does not know"

# Accepted, and what no command can get: a short report buffer, the next strength.
UNSEEN = (0, 41, 49)


def header_table():
    """Number, kind of place and words of each line of the header's table; a line that goes on begins with spaces."""
    with open(os.path.join(ROOT, "include", "pechuvo.h"), encoding="utf-8") as file:
        text = file.read()
    table = text[text.index("number  place"):text.index("The first that applies")]
    rows = []
    for line in table.splitlines()[1:]:
        row = re.fullmatch(r"\s{2,6}(\d+)\s+(0|[a-z]+(?: \d)?)\s{2,}(\S.*)", line)
        if row:
            kind = row[2].split()[0]
            rows.append([int(row[1]), "none" if kind == "0" else kind, row[3]])
        elif line.strip():
            rows[-1][2] += " " + line.strip()
    return rows


def shared(said):
    """The header's words of a number without what they say of a call's own numbers: which call."""
    return said.split("; pechuvo_")[0].split("; the two calls")[0]


def told_table(path):
    with open(path, encoding="utf-8") as file:
        rows = [line.split("\t") for line in file.read().splitlines()]
    return [[int(number), kind, words] for number, kind, words in rows if words != UNKNOWN]


def main():
    header = {number: (kind, words) for number, kind, words in header_table()}
    told = {number: (kind, words) for number, kind, words in told_table(sys.argv[1])}
    agree("the numbers that have words", sorted(told), sorted(header))
    with open(os.path.join(ROOT, "command", "pechuvo.1"), encoding="utf-8") as file:
        manual = " ".join(file.read().split())
    for number, (kind, words) in header.items():
        agree(f"{number}: kind of place", told[number][0], kind)
        # The command says more of a book's.
        if not told[number][1].startswith(shared(words)):
            fail(f"{number}: {told[number][1]!r}, not {shared(words)!r}")
        if number not in UNSEEN and told[number][1] not in manual:
            fail(f"{number}: not in the manual page")
    print(f"{len(header)} numbers, each with the header's words")


if __name__ == "__main__":
    main()
