"""The true answer: number, place and report line as the archive with the calls of include/pechuvo.h gives them."""

import ctypes
import functools
import os
import subprocess
import tempfile

import rows

TARGET = os.path.join(os.path.dirname(os.path.abspath(__file__)), "..", "target")
LIBRARY = os.path.join(TARGET, "shared", "libpechuvo.so")
ARCHIVE = os.path.join(TARGET, "staticlib", "libpechuvo.a")
SONAME = "libpechuvo.so.1"


class Answer(ctypes.Structure):
    _fields_ = [("number", ctypes.c_uint32), ("place", ctypes.c_uint32)]


def shared_of_archive():
    """A shared library made of the archive, or None where no compiler makes one. It goes once it is loaded."""
    with tempfile.TemporaryDirectory() as folder:
        shared = os.path.join(folder, "libpechuvo.so")
        command = ["gcc", "-shared", "-o", shared, "-Wl,--whole-archive", ARCHIVE, "-Wl,--no-whole-archive"]
        try:
            subprocess.run(command, check=True, capture_output=True)
            return ctypes.CDLL(shared)
        except (OSError, subprocess.CalledProcessError):
            return None


def installed():
    """The library that the system's loader finds, or None."""
    try:
        return ctypes.CDLL(SONAME)
    except OSError:
        return None


@functools.cache
def library():
    """The archive's calls: of the shared library that PECHUVO_LIBRARY names; else of the one that is built here,
    unless the archive is newer, or of one made of the archive; where nothing is built, of an installed one; None where
    there is none. A library that is named or built and can't be loaded is an OSError."""
    named = os.environ.get("PECHUVO_LIBRARY")
    if named:
        return ctypes.CDLL(named)
    if os.path.exists(ARCHIVE) and not newer(LIBRARY, ARCHIVE):
        return shared_of_archive()
    return ctypes.CDLL(LIBRARY) if os.path.exists(LIBRARY) else installed()


def newer(one, other):
    return os.path.exists(one) and os.path.getmtime(one) >= os.path.getmtime(other)


def ask(calls, mesh, table, claim, decimals=6):
    """Number, place and the report line's bytes that pechuvo_check gives for three byte strings."""
    check, size = calls.pechuvo_check, ctypes.c_size_t
    check.restype = Answer
    check.argtypes = [ctypes.c_char_p, size] * 3 + [ctypes.c_int64, ctypes.c_char_p, size]
    report = ctypes.create_string_buffer(rows.REPORT)
    lent = [part for data in (mesh, table, claim) for part in (data, len(data))]
    answer = check(*lent, decimals, report, rows.REPORT)
    return answer.number, answer.place, report.raw


def check(mesh, table, claim):
    """The same of the library that is here, or None where there is none."""
    calls = library()
    return None if calls is None else ask(calls, mesh, table, claim)
