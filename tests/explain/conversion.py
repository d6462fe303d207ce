"""The command tools/convert_mesh.py: it says what it changes, and leaves alone what is no mesh."""

import os
import shutil
import subprocess
import sys

from held import SHEETS, TOOLS, content, hold, sheet, written

TOOL = os.path.join(TOOLS, "convert_mesh.py")


def older(mesh, soils):
    """A mesh as it was before jumps and kinds of soil."""
    lines = mesh.split(b"\n")
    lines[0] = lines[0][:60]
    return b"\n".join(line[:96] if 0 < k <= soils else line for k, line in enumerate(lines))


def hold_run(status, words, *given):
    done = subprocess.run([sys.executable, "-B", TOOL, *given], capture_output=True, text=True)
    text = f"convert_mesh.py {' '.join(given)}: {done.returncode}\n{done.stdout}{done.stderr}"
    said = done.stderr if status else done.stdout
    hold(done.returncode == status and words in said and "Traceback" not in done.stderr, text)


def hold_changed(out):
    for name, soils, words in (
        ("worked", 1, "the header has a 0 for its jumps now, the soil line 2 has 0 and 0 for kind and cv now"),
        ("table_slope", 3, "the header has a 0 for its jumps now, 3 soil lines have 0 and 0 for kind and cv now"),
    ):
        mesh = sheet(name).mesh
        path = written(os.path.join(out, "older.mesh"), older(mesh, soils))
        hold_run(0, f"{path}: {words}", path)
        hold(content(path) == mesh, f"{name}: not converted")
        hold_run(0, f"{path}: has today's form, left as it is", path)
        hold(content(path) == mesh and os.listdir(out).count("older.mesh.part") == 0, f"{name}: changed twice")


def hold_left_alone(out):
    mesh = sheet("worked").mesh
    windows = written(os.path.join(out, "crlf.mesh"), older(mesh, 1).replace(b"\n", b"\r\n"))
    claim = os.path.join(out, "a.claim")
    shutil.copy(os.path.join(SHEETS, "worked.claim"), claim)
    note = written(os.path.join(out, "a.txt"), b"0" * 60)
    five = written(os.path.join(out, "element"), b"".join(b"%12d" % number for number in (1, 2, 3, 4, 1)) + b"\n")
    absent = os.path.join(out, "nope")
    files = {path: content(path) for path in (windows, claim, note, five)}
    hold_run(2, f"convert_mesh.py: {absent}: can't be read: No such file", absent)
    hold_run(2, f"convert_mesh.py: {out}: can't be read: Is a directory", out)
    hold_run(2, f"{windows}: its lines end in CR LF", windows)
    hold_run(2, f"{claim}: this is no mesh: it is refused with 1 at line 1", claim)
    hold_run(2, f"{note}: this is no mesh: with the columns of today's form it is refused with 1 at line 1", note)
    hold_run(2, f"{five}: this is no mesh: with the columns of today's form it is refused with 2 at line 1", five)
    hold_run(2, "the following arguments are required: MESH")
    hold_run(0, "convert_mesh.py MESH..", "--help")
    hold(all(content(path) == data for path, data in files.items()), "convert_mesh.py: a file is written over")
    old = written(os.path.join(out, "last.mesh"), older(mesh, 1))
    hold_run(2, absent, absent, old)
    hold(content(old) == mesh, "convert_mesh.py: a file after one that can't be read isn't converted")


def hold_conversion(out):
    hold_changed(out)
    hold_left_alone(out)
