"""Checks a claim, tells what its mesh asks room for, and keeps a book of it. From the repository's root:

    python3 bindings/python/example.py sheets/worked.mesh sheets/worked.claim [TABLE]

Without names it takes sheets/worked. The status is 0 for an accepted claim, 1 for a refused one, 2 where a file or
the library is missing.
"""

import sys
from pathlib import Path
from typing import List

import pechuvo

SHEETS = Path(__file__).resolve().parents[2] / "sheets"


def main(names: List[str]) -> int:
    names = names or [str(SHEETS / "worked.mesh"), str(SHEETS / "worked.claim")]
    if len(names) not in (2, 3):
        print("usage: example.py MESH CLAIM [TABLE]", file=sys.stderr)
        return 2
    mesh, claim, table = [Path(name).read_bytes() for name in names] + [b""] * (3 - len(names))

    answer = pechuvo.check(mesh, claim, table, decimals=3)
    print(f"the check: {answer}")
    if answer.report is not None:
        print(answer.report.decode("ascii"), end="")

    sizes = pechuvo.mesh_sizes(mesh, table)
    if sizes.accepted:
        print(f"rows of strength: {sizes.strength_rows}; bytes of a claim with both parts: {sizes.both_bytes}")

    book = pechuvo.Book()
    if book.ask(mesh, claim, table).accepted:
        book = book.commit(book.count, mesh, claim, table).book
    print(f"the book: carried {book.lower}, limit {book.upper}, claims {book.count}")
    return 0 if answer.accepted else 1


if __name__ == "__main__":
    try:
        sys.exit(main(sys.argv[1:]))
    except OSError as error:
        print(f"example.py: {error}", file=sys.stderr)
        sys.exit(2)
