"""Load factor claims on soil meshes, checked: every call of include/pechuvo.h for Python.

One file, for CPython 3.8 or later, with the standard library alone. It hands bytes and numbers to the shared
library libpechuvo and tells what comes back; it judges nothing itself.

    import pechuvo
    answer = pechuvo.check(mesh, claim)     # the bytes of the two files
    print(answer)                           # accepted, or refused: 22, row 1: strength fails (..)
    print(answer.report.split())            # the four columns of the report line

docs/FILES.md of the repository has the columns of the files, and which row, column or line is whose.

A refused mesh, table, claim, book or trial is an answer, never an exception. Exceptions are for wrong use:
TypeError for an argument of another type, OverflowError for a number beyond 64 bits, OSError where the library is
missing.

A file is bytes, bytearray, memoryview or anything else that lends its bytes in one piece (mmap); none is copied.
Python's lock is let go during a call, so threads run side by side; only let no thread change a bytearray that a call
in another one still reads.

The library is the first of: the path given to load(); the environment variable PECHUVO_LIBRARY; target/shared of the
repository that this file stands in; what the system's loader finds.
"""

import array
import ctypes
import enum
import mmap
import operator
import os
import threading
from dataclasses import dataclass
from fractions import Fraction
from pathlib import Path
from typing import Any, Dict, Iterable, List, Optional, Tuple, Union

__all__ = [
    "Answer", "Book", "BookAnswer", "Loads", "NextStrength", "Number", "Run", "Sizes", "Verdict", "MOST_CLAIM_BYTES",
    "MOST_CLAIM_NUMBERS", "MOST_COMMITS", "MOST_DECIMALS", "MOST_EDGES", "MOST_ELEMENTS", "MOST_JUMPS", "MOST_LAYERS",
    "MOST_MESH_BYTES", "MOST_MESH_NUMBERS", "MOST_NODES", "MOST_NODES_WITH_108", "MOST_PAIRS", "MOST_PAIRS_WITH_108",
    "MOST_SIDES", "MOST_SOILS", "MOST_TABLE_BYTES", "MOST_TABLE_NUMBERS", "REPORT", "TABLE_LINE", "USUAL_DECIMALS",
    "WORDS", "check", "check_numbers", "check_run", "load", "mesh_sizes", "next_strength",
]

REPORT = 113
"""The bytes of a report line."""

# The limits of include/pechuvo.h, which says more of each.
MOST_DECIMALS = 7
USUAL_DECIMALS = 6
MOST_NODES = 100
MOST_ELEMENTS = 100
MOST_SOILS = 16
MOST_EDGES = 60
MOST_JUMPS = 60
MOST_PAIRS = 100
MOST_LAYERS = 32
MOST_SIDES = 108
MOST_NODES_WITH_108 = 40
MOST_PAIRS_WITH_108 = 40
TABLE_LINE = 1001
MOST_MESH_NUMBERS = 1526
MOST_TABLE_NUMBERS = 96
MOST_CLAIM_NUMBERS = 5124
MOST_MESH_BYTES = 18649
MOST_TABLE_BYTES = 1184
MOST_CLAIM_BYTES = 61789
MOST_COMMITS = 1000000

File = Union[bytes, bytearray, memoryview, mmap.mmap]
Numbers = Union[Iterable[int], memoryview]

_SONAME = "libpechuvo.so.1"


# What is told

class Number(enum.IntEnum):
    """What a number says; WORDS has it in words."""

    ACCEPTED = 0
    MESH_FORM = 1
    MESH_LIMIT = 2
    NO_RIGHT_ANGLE = 3
    UNKNOWN_NAME = 4
    NO_LEFT_TURN = 5
    SIDE_TWICE = 6
    NODE_UNUSED = 7
    WRONG_EDGE = 8
    CLAIM_FORM = 11
    CLAIM_LIMIT = 12
    WRONG_PARTS = 13
    EQUALITY_FAILS = 21
    STRENGTH_FAILS = 22
    UNFIXED_MULTIPLIER = 31
    COLUMN_SUM = 32
    LOAD_SUM = 33
    SHORT_BUFFER = 41
    TOO_MANY_PAIRS = 42
    WRONG_DECIMALS = 43
    WRONG_JUMP = 44
    LAYER_MISSING = 45
    WRONG_LAYER = 46
    ELEMENTS_OVERLAP = 47
    BOOK_TAKES_NONE = 48
    NO_NEXT_STRENGTH = 49


WORDS: Dict[int, str] = {
    Number.ACCEPTED: "accepted: each part that the claim has passes its checks",
    Number.MESH_FORM: "mesh or table form: length, character, spelling, bytes missing or left over",
    Number.MESH_LIMIT: "mesh or table number outside its limits; a soil of kind 1 on a mesh with 108 sides",
    Number.NO_RIGHT_ANGLE: "p^2 + q^2 is not h^2",
    Number.UNKNOWN_NAME: "names a node or soil that isn't there",
    Number.NO_LEFT_TURN: "not a left turn at all corners: four, or three of a triangle",
    Number.SIDE_TWICE: "a directed side that a lower element has",
    Number.NODE_UNUSED: "in no element",
    Number.WRONG_EDGE: "edge is no element's side, or its reverse is one, or an earlier edge has it",
    Number.CLAIM_FORM: "claim form",
    Number.CLAIM_LIMIT: "claim number outside its limits",
    Number.WRONG_PARTS: "both parts absent; field with n = 0; no field and n or l not 0",
    Number.EQUALITY_FAILS: "equality fails (balance, side and jump rows, counted together from 1)",
    Number.STRENGTH_FAILS: "strength fails (strength rows, counted from 1, by pairs)",
    Number.UNFIXED_MULTIPLIER: "nonzero multiplier on an unfixed row",
    Number.COLUMN_SUM: "column sum not 0",
    Number.LOAD_SUM: "m is 0 or less",
    Number.SHORT_BUFFER: "report buffer under 113 bytes",
    Number.TOO_MANY_PAIRS:
        "brings the 101st pair of a node and a soil of the elements around it, or the 41st on a mesh with "
        "108 sides",
    Number.WRONG_DECIMALS: "number of decimals other than 0 to 7",
    Number.WRONG_JUMP:
        "jump: its two sides are not outer sides that face each other, or one is used by an edge or an "
        "earlier jump",
    Number.LAYER_MISSING: "table: the lowest height of the mesh in no layer, in quarters of a unit",
    Number.WRONG_LAYER:
        "table: the first whose top isn't above its bottom; if there is none, the first that shares a height "
        "of the mesh with an earlier one",
    Number.ELEMENTS_OVERLAP: "shares a point inside both with a lower element; touching is fine",
    Number.BOOK_TAKES_NONE:
        "the book takes no such call: the named count differs, the count is 1,000,000 or more, or a bound "
        "has a denominator not above 0",
    Number.NO_NEXT_STRENGTH:
        "no next strength: an input isn't finite and above 0, l1 = l2, or the result isn't finite and above 0",
}
"""What each number says, in words."""

_KINDS = {
    "line": (1, 2, 3, 4, 8, 11, 12, 13, 44, 46),
    "element": (5, 6, 47),
    "node": (7, 42),
    "row": (21, 22, 31),
    "column": (32, 33),
    "height": (45,),
}
_KIND_OF: Dict[int, str] = {number: kind for kind, numbers in _KINDS.items() for number in numbers}


@dataclass(frozen=True)
class Verdict:
    """Number and place of an answer: 0 and 0 where it is accepted, else those of the refusal."""

    number: int
    place: int

    @property
    def accepted(self) -> bool:
        return self.number == 0

    @property
    def kind(self) -> Optional[str]:
        """What the place is: a line, element, node, row, column or height (in quarters of a unit), or None."""
        return _KIND_OF.get(self.number)

    @property
    def words(self) -> str:
        """What the number says."""
        return WORDS.get(self.number, "a number that this file does not know")

    def __str__(self) -> str:
        if self.accepted:
            return "accepted"
        place = f", {self.kind} {self.place}" if self.kind else ""
        return f"refused: {self.number}{place}: {self.words}"


@dataclass(frozen=True)
class Answer(Verdict):
    """The answer of a check, with its report line: 113 bytes, or None where none is written (43).

    report.split() has the four columns: 0, open rows, lower load and upper load where the claim is accepted; else
    number, place, none, none. `none` also stands for what the claim lacks.
    """

    report: Optional[bytes]


@dataclass(frozen=True)
class Run:
    """The answers of a run, in turn, and how many bytes of its claims were taken."""

    answers: Tuple[Answer, ...]
    taken: int


@dataclass(frozen=True)
class Loads(Verdict):
    """The loads of a claim that was handed over in numbers: l/n is carried, w/m is the limit, as they stand.

    l and n are 0 unless the claim is accepted, has a field and its mesh lists no soil of kind 1; w and m are 0 unless
    it is accepted and has multipliers. open_rows is None unless it is accepted and has both.
    """

    field: bool
    multipliers: bool
    l: int
    n: int
    w: int
    m: int
    open_rows: Optional[int]

    @property
    def lower(self) -> Optional[Fraction]:
        """The load that is carried, or None."""
        return Fraction(self.l, self.n) if self.n else None

    @property
    def upper(self) -> Optional[Fraction]:
        """The limit that no field passes, or None."""
        return Fraction(self.w, self.m) if self.m else None


@dataclass(frozen=True)
class Sizes(Verdict):
    """What a mesh asks room for: rows of each kind, columns, bytes of a claim by its parts. All 0 where refused."""

    balance_rows: int
    side_rows: int
    jump_rows: int
    strength_rows: int
    columns: int
    field_bytes: int
    multipliers_bytes: int
    both_bytes: int


@dataclass(frozen=True)
class Book:
    """The best bracket of the claims for one mesh: the highest carried load, the lowest limit (None where there is
    none yet) and how many accepted claims were committed. Book() is empty."""

    lower: Optional[Fraction] = None
    upper: Optional[Fraction] = None
    count: int = 0

    def ask(self, mesh: File, claim: File, table: File = b"") -> "BookAnswer":
        """Judges a claim and tells the book that would follow it."""
        with _file("mesh", mesh) as m, _file("table", table) as t, _file("claim", claim) as c:
            return _book_answer(_calls().pechuvo_book_ask(_lent_book(self), *_lend(m), *_lend(t), *_lend(c)))

    def commit(self, count: int, mesh: File, claim: File, table: File = b"") -> "BookAnswer":
        """The same, and the book in the answer is the one to go on with. The count is that of the book which the ask
        saw; 48 where it isn't this one's."""
        seen = _whole("count", count, 0, _MOST_U64)
        with _file("mesh", mesh) as m, _file("table", table) as t, _file("claim", claim) as c:
            return _book_answer(_calls().pechuvo_book_commit(_lent_book(self), seen, *_lend(m), *_lend(t), *_lend(c)))


@dataclass(frozen=True)
class BookAnswer(Verdict):
    """The answer of a book, with the book that follows; a refused claim leaves it as it was."""

    book: Book


@dataclass(frozen=True)
class NextStrength(Verdict):
    """The next strength to try, or None where it is refused (49)."""

    strength: Optional[float]


# The calls

def check(mesh: File, claim: File, table: File = b"", decimals: int = 6) -> Answer:
    """Checks a mesh file, a claim file and a table file; an empty table is none. Both loads of the report have as many
    decimals as are asked for, 0 to 7; another number gets 43 and no report."""
    digits = _whole("decimals", decimals, _LEAST_I64, _MOST_I64)
    line = ctypes.create_string_buffer(REPORT)
    with _file("mesh", mesh) as m, _file("table", table) as t, _file("claim", claim) as c:
        got = _calls().pechuvo_check(*_lend(m), *_lend(t), *_lend(c), digits, line, REPORT)
    report = line.raw
    # A line that is written begins with a space or a digit.
    return Answer(got.number, got.place, report if report[0] else None)


def check_run(mesh: File, claims: File, table: File = b"", most: Optional[int] = None) -> Run:
    """Checks claims for one mesh, written one after another with nothing between, with six decimals each. At most
    `most` are answered; a run that was ended by this goes on with memoryview(claims)[run.taken:]."""
    limit = None if most is None else _whole("most", most, 0, _MOST_I64)
    with _file("mesh", mesh) as m, _file("table", table) as t, _file("claims", claims) as c:
        room = _reports_at_most(mesh_sizes(m, t), c.nbytes)
        if limit is not None:
            room = min(room, limit)
        lines = ctypes.create_string_buffer(max(1, room * REPORT))
        got = _calls().pechuvo_check_run(*_lend(m), *_lend(t), *_lend(c), lines, room * REPORT)
    written = memoryview(lines)[: got.reports * REPORT]
    reports = (bytes(written[at : at + REPORT]) for at in range(0, len(written), REPORT))
    return Run(tuple(map(_told_by, reports)), got.bytes)


def check_numbers(mesh: Numbers, claim: Numbers, table: Numbers = ()) -> Loads:
    """Checks the numbers of a mesh, of a claim and of a table, each in the order of its file; an empty table is none.
    A list is copied into 64 bits; array('q') and a memoryview of such numbers, aligned as they are, is not."""
    with _list("mesh", mesh) as m, _list("table", table) as t, _list("claim", claim) as c:
        got = _calls().pechuvo_check_numbers(*_lend(m), *_lend(t), *_lend(c))
    both = got.field == 1 and got.multipliers == 1
    return Loads(got.number, got.place, got.field == 1, got.multipliers == 1, got.l, got.n, got.w, got.m,
                 got.open_rows if both else None)


def mesh_sizes(mesh: File, table: File = b"") -> Sizes:
    """The sizes of a mesh file with a table file, without any claim."""
    with _file("mesh", mesh) as m, _file("table", table) as t:
        got = _calls().pechuvo_mesh_sizes(*_lend(m), *_lend(t))
    return Sizes(*(getattr(got, name) for name, _ in got._fields_))


def next_strength(k1: float, l1: float, k2: float, l2: float) -> NextStrength:
    """The next strength to try after two trials: strength k1 with load factor l1, k2 with l2."""
    trials = [_binary64(name, value) for name, value in (("k1", k1), ("l1", l1), ("k2", k2), ("l2", l2))]
    got = _calls().pechuvo_next_strength(*trials)
    return NextStrength(got.number, got.place, got.strength if got.number == 0 else None)


def _reports_at_most(sizes: Sizes, claims_bytes: int) -> int:
    """Each claim that is taken has at least the shorter length; one report more may end the run."""
    shortest = min(sizes.field_bytes, sizes.multipliers_bytes)
    return 1 + (claims_bytes // shortest if shortest else 0)


def _told_by(line: bytes) -> Answer:
    """The answer that a report line of a run tells."""
    number, second = line.split()[:2]
    return Answer(int(number), int(second) if number != b"0" else 0, line)


# What is handed over

_LEAST_I64, _MOST_I64, _MOST_U64 = -(2**63), 2**63 - 1, 2**64 - 1


def _whole(name: str, value: int, least: int, most: int) -> int:
    try:
        number = operator.index(value)
    except TypeError:
        raise TypeError(f"{name} is a whole number, not {type(value).__name__}") from None
    if not least <= number <= most:
        raise OverflowError(f"{name} is a whole number from {least} to {most}")
    return number


def _binary64(name: str, value: float) -> float:
    if not isinstance(value, (float, int)):
        raise TypeError(f"{name} is a float, not {type(value).__name__}")
    return float(value)


def _file(name: str, data: File) -> memoryview:
    """A view of a file's bytes, which stay where they are for as long as it lives."""
    try:
        view = memoryview(data)
    except TypeError:
        raise TypeError(f"{name} is bytes, bytearray or memoryview, not {type(data).__name__}") from None
    if view.itemsize != 1 or not view.c_contiguous:
        raise TypeError(f"{name} is a memoryview of single bytes, in one piece")
    return view


def _list(name: str, numbers: Numbers) -> memoryview:
    """A view of numbers of 64 bits: those that are lent, or a copy of a list's."""
    try:
        view = memoryview(numbers)  # type: ignore[arg-type]
    except TypeError:
        view = memoryview(_copied(name, numbers))
    if view.format not in ("q", "l") or view.itemsize != 8 or not view.c_contiguous:
        raise TypeError(f"{name} is a list of whole numbers or array('q'), not {type(numbers).__name__}")
    aligned = _address(view) % ctypes.alignment(ctypes.c_int64) == 0
    return view if aligned else memoryview(_copied(name, view))


def _copied(name: str, numbers: Iterable[int]) -> "array.array[int]":
    try:
        return array.array("q", map(operator.index, numbers))
    except TypeError:
        raise TypeError(f"{name} is a list of whole numbers or array('q')") from None
    except OverflowError:
        raise OverflowError(f"{name} has a number beyond 64 bits") from None


def _lent_book(book: Book) -> "_Book":
    lower, upper = _lent_bound("lower", book.lower), _lent_bound("upper", book.upper)
    count = _whole("count", book.count, 0, _MOST_U64)
    return _Book(lower[0], upper[0], lower[1], lower[2], upper[1], upper[2], count)


def _lent_bound(name: str, bound: Optional[Fraction]) -> Tuple[int, int, int]:
    if bound is None:
        return 0, 0, 0
    if not isinstance(bound, (Fraction, int)):
        raise TypeError(f"{name} is a Fraction or None, not {type(bound).__name__}")
    above, below = (_whole(f"{name} over or under its line", part, _LEAST_I64, _MOST_I64)
                    for part in (bound.numerator, bound.denominator))
    return 1, above, below


def _book_answer(got: "_BookAnswer") -> BookAnswer:
    book = got.book
    lower = Fraction(book.lower_numerator, book.lower_denominator) if book.lower_there else None
    upper = Fraction(book.upper_numerator, book.upper_denominator) if book.upper_there else None
    return BookAnswer(got.number, got.place, Book(lower, upper, book.count))


class _PyBuffer(ctypes.Structure):
    """Python's own Py_buffer. ctypes tells the address of bytes that may be written only; this tells any."""

    _fields_ = [
        ("buf", ctypes.c_void_p), ("obj", ctypes.c_void_p), ("len", ctypes.c_ssize_t), ("itemsize", ctypes.c_ssize_t),
        ("readonly", ctypes.c_int), ("ndim", ctypes.c_int), ("format", ctypes.c_void_p), ("shape", ctypes.c_void_p),
        ("strides", ctypes.c_void_p), ("suboffsets", ctypes.c_void_p), ("internal", ctypes.c_void_p),
    ]


_get_buffer = ctypes.pythonapi.PyObject_GetBuffer
_get_buffer.argtypes = [ctypes.py_object, ctypes.POINTER(_PyBuffer), ctypes.c_int]
_release_buffer = ctypes.pythonapi.PyBuffer_Release
_release_buffer.argtypes = [ctypes.POINTER(_PyBuffer)]
_release_buffer.restype = None


def _address(view: memoryview) -> int:
    """Where a view's elements are; they stay there for as long as the view lives."""
    buffer = _PyBuffer()
    _get_buffer(view, ctypes.byref(buffer), 0)
    address = buffer.buf
    _release_buffer(ctypes.byref(buffer))
    return address or 0


def _lend(view: memoryview) -> Tuple[Union[int, bytes], int]:
    """A view's elements as a call takes them, by their address, and their number."""
    count = view.nbytes // view.itemsize
    whole = view.obj
    if type(whole) is bytes and len(whole) == view.nbytes:
        return whole, count  # ctypes lends whole bytes by itself, and sooner.
    return _address(view), count


# The library: the structs and calls of include/pechuvo.h

class _Answer(ctypes.Structure):
    _fields_ = [("number", ctypes.c_uint32), ("place", ctypes.c_uint32)]


class _Run(ctypes.Structure):
    _fields_ = [("reports", ctypes.c_uint64), ("bytes", ctypes.c_uint64)]


class _Sizes(ctypes.Structure):
    _fields_ = [
        ("number", ctypes.c_uint32), ("place", ctypes.c_uint32),
        ("balance_rows", ctypes.c_uint64), ("side_rows", ctypes.c_uint64), ("jump_rows", ctypes.c_uint64),
        ("strength_rows", ctypes.c_uint64), ("columns", ctypes.c_uint64), ("field_bytes", ctypes.c_uint64),
        ("multipliers_bytes", ctypes.c_uint64), ("both_bytes", ctypes.c_uint64),
    ]


class _Book(ctypes.Structure):
    _fields_ = [
        ("lower_there", ctypes.c_uint32), ("upper_there", ctypes.c_uint32),
        ("lower_numerator", ctypes.c_int64), ("lower_denominator", ctypes.c_int64),
        ("upper_numerator", ctypes.c_int64), ("upper_denominator", ctypes.c_int64),
        ("count", ctypes.c_uint64),
    ]


class _BookAnswer(ctypes.Structure):
    _fields_ = [("number", ctypes.c_uint32), ("place", ctypes.c_uint32), ("book", _Book)]


class _Numbers(ctypes.Structure):
    _fields_ = [
        ("number", ctypes.c_uint32), ("place", ctypes.c_uint32),
        ("field", ctypes.c_uint32), ("multipliers", ctypes.c_uint32),
        ("l", ctypes.c_int64), ("n", ctypes.c_int64), ("w", ctypes.c_int64), ("m", ctypes.c_int64),
        ("open_rows", ctypes.c_uint64),
    ]


class _Next(ctypes.Structure):
    _fields_ = [("number", ctypes.c_uint32), ("place", ctypes.c_uint32), ("strength", ctypes.c_double)]


_LENT: List[Any] = [ctypes.c_void_p, ctypes.c_size_t]

# Each call with what it returns and takes.
_CALLS: Dict[str, Tuple[Any, List[Any]]] = {
    "pechuvo_check": (_Answer, _LENT * 3 + [ctypes.c_int64] + _LENT),
    "pechuvo_check_run": (_Run, _LENT * 4),
    "pechuvo_mesh_sizes": (_Sizes, _LENT * 2),
    "pechuvo_book_ask": (_BookAnswer, [_Book] + _LENT * 3),
    "pechuvo_book_commit": (_BookAnswer, [_Book, ctypes.c_uint64] + _LENT * 3),
    "pechuvo_check_numbers": (_Numbers, _LENT * 3),
    "pechuvo_next_strength": (_Next, [ctypes.c_double] * 4),
}

_library: Optional[ctypes.CDLL] = None
_loading = threading.Lock()


def load(path: Union[str, "os.PathLike[str]", None] = None) -> None:
    """Loads the library from a path, or without one from the first of the other places that has it. The calls do this
    by themselves where it wasn't done. Calls that follow use the library that was loaded last."""
    global _library
    where = os.fspath(path) if path is not None else _found()
    try:
        library = ctypes.CDLL(where)
    except OSError as error:
        raise OSError(f"the library of pechuvo can't be loaded: {error}. Give its path to pechuvo.load() or in the "
                      "environment variable PECHUVO_LIBRARY") from None
    for name, (result, arguments) in _CALLS.items():
        try:
            call = getattr(library, name)
        except AttributeError:
            raise OSError(f"{where} has no {name}: it isn't the library that this file was written for") from None
        call.restype, call.argtypes = result, arguments
    _library = library


def _found() -> str:
    named = os.environ.get("PECHUVO_LIBRARY")
    if named:
        return named
    built = Path(__file__).resolve().parent.parent.parent / "target" / "shared"
    for name in (_SONAME, "libpechuvo.so"):
        if (built / name).exists():
            return str(built / name)
    return _SONAME


def _calls() -> ctypes.CDLL:
    if _library is None:
        with _loading:
            if _library is None:
                load()
    assert _library is not None
    return _library
