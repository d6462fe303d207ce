"""The command tools/explain.py itself: its options, its exit statuses, what it writes and what it leaves alone."""

import json
import os
import shutil
import subprocess
import sys
import xml.etree.ElementTree

from held import SHEETS, TOOLS, content, hold, written

import archive

COMMAND = os.path.join(TOOLS, "explain.py")
SVG = "{http://www.w3.org/2000/svg}"

FAKE = """
#include <string.h>
struct answer { unsigned number, place; };
struct answer pechuvo_check(const char *mesh, size_t a, const char *table, size_t b, const char *claim, size_t c,
                            long long decimals, char *report, size_t d) {
  memset(report, ' ', 113);
  return (struct answer){22, 2};
}
"""


def run(*given, command=COMMAND, **environment):
    done = subprocess.run(
        [sys.executable, "-B", command, *given], capture_output=True, text=True, env={**os.environ, **environment}
    )
    hold("Traceback" not in done.stderr, f"explain.py {' '.join(given)}: {done.stderr}")
    return done


def hold_run(status, words, *given, **more):
    """A run has this exit status and these words on its output or, from status 2 on, on standard error."""
    done = run(*given, **more)
    text = done.stderr if status >= 2 else done.stdout
    run_words = f"explain.py {' '.join(given)}: {done.returncode}\n{done.stdout}{done.stderr}"
    hold(done.returncode == status and words in text, run_words)
    return done


def hold_command(out):
    mesh, claim = os.path.join(SHEETS, "worked.mesh"), os.path.join(SHEETS, "worked.claim")
    above, absent = os.path.join(SHEETS, "worked_above.claim"), os.path.join(out, "absent")
    table = os.path.join(SHEETS, "table_gap.table")
    hold_run(0, "number, place and report are the archive's", mesh, claim)
    hold_run(1, "refused with 22 at row 1", mesh, above)
    hold_run(1, "refused with 45 at height 4", mesh, claim, table)
    hold_run(1, "refused with 45 at height 4", mesh, claim, "--table", table)
    hold_run(1, "refused with 45 at height 4", mesh, "--table", table, claim)
    hold_run(1, '"number": 45', mesh, claim, "--json", table)
    hold_run(2, f"two tables: {table} and {table}", mesh, claim, table, "--table", table)
    hold_run(2, "can't be read: No such file", mesh, claim, "--table=")
    hold_run(2, "the following arguments are required", mesh)
    hold_run(2, f"{absent}: can't be read: No such file", mesh, absent)
    hold_run(2, f"{absent}: can't be read: No such file", mesh, claim, absent)
    hold_run(2, f"{out}: can't be read: Is a directory", out, claim)
    hold_run(2, "which is not overwritten", mesh, claim, "--svg", claim)
    hold_run(2, "can't be written", mesh, claim, "--svg", os.path.join(absent, "picture"))
    hold_run(2, "the archive's library can't be used", mesh, claim, PECHUVO_LIBRARY=absent)
    hold_run(0, "Status: 0 accepted", "--help")
    strange = os.path.join(out, "mesh\udcff\n.mesh")
    shutil.copy(mesh, strange)
    hold_run(0, "accepted", strange, claim, "--svg", os.path.join(out, "strange.svg"))
    hold_json(mesh, above, os.path.join(out, "picture.svg"))
    hold_drawn_over(out)
    hold_differing(out, mesh, claim)
    hold_without_archive(out, mesh, claim)


def hold_drawn_over(out):
    """A picture takes the place of an earlier one and of nothing else."""
    mesh, claim = os.path.join(SHEETS, "worked.mesh"), os.path.join(SHEETS, "worked.claim")
    sheet = [os.path.join(out, f"table_slope.{end}") for end in ("mesh", "claim", "table")]
    for path in sheet:
        shutil.copy(os.path.join(SHEETS, os.path.basename(path)), path)
    windows = written(os.path.join(out, "windows.mesh"), content(mesh).replace(b"\n", b"\r\n"))
    empty, note = written(os.path.join(out, "empty"), b""), written(os.path.join(out, "note"), b"dear reader")
    kept = {path: content(path) for path in (*sheet, windows, empty, note)}
    other = "this is a mesh or a claim: give another name"
    hold_run(2, f"--svg {sheet[0]}: {other}", "--svg", *sheet)
    hold_run(2, f"--svg {sheet[1]}: {other}", mesh, claim, "--svg", sheet[1])
    for path in (sheet[2], windows, empty, note):
        hold_run(2, f"--svg {path}: this is there and is no drawing", mesh, claim, "--svg", path)
    hold_run(2, "--svg: the drawing's name is missing", mesh, claim, "--svg=")
    hold(all(content(path) == data for path, data in kept.items()), "--svg: a file is written over")
    for start in (b"<svg ", b"<?xml "):
        drawing = written(os.path.join(out, "drawing.svg"), start)
        hold_run(0, "accepted", mesh, claim, "--svg", drawing)
        hold(content(drawing).endswith(b"</svg>"), f"--svg: {start} isn't drawn over")


def hold_json(mesh, claim, picture):
    told = json.loads(hold_run(1, "", mesh, claim, "--json", "--svg", picture).stdout)
    answer = {part: told[part] for part in ("number", "place", "report")}
    hold((told["number"], told["place"]) == (22, 1) and len(told["reasons"]) == 8, f"--json: {answer}")
    hold(told["archive"] == answer, "--json: the archive's answer")
    sides = [told["reasons"][0][side] for side in ("left", "right", "difference")]
    hold(sides == ["315", "300", "15"], f"--json: {sides} are no strings")
    hold(xml.etree.ElementTree.parse(picture).getroot().tag == SVG + "svg", "--svg: no picture")


def fake_library(path):
    """A library that answers something else."""
    source = path + ".c"
    with open(source, "w", encoding="ascii") as file:
        file.write(FAKE)
    subprocess.run(["gcc", "-shared", "-fPIC", "-o", path, source], check=True)
    return path


def shared_library(path):
    """The archive as a library."""
    whole = ["-Wl,--whole-archive", archive.ARCHIVE, "-Wl,--no-whole-archive"]
    subprocess.run(["gcc", "-shared", "-o", path, *whole], check=True)


def hold_differing(out, mesh, claim):
    library = fake_library(os.path.join(out, "fake.so"))
    done = hold_run(3, "THE TWO ANSWERS DIFFER", mesh, claim, PECHUVO_LIBRARY=library)
    hold("the archive: number 22, place 2" in done.stderr, "differing, the archive's answer")
    hold("THE ARCHIVE SAYS SOMETHING ELSE" in done.stdout, "differing, on standard output")
    hold(json.loads(run(mesh, claim, "--json", PECHUVO_LIBRARY=library).stdout)["differs"], "differing, --json")


def hold_without_archive(out, mesh, claim):
    """The tools alone, where nothing is built; then with a library that is installed, which counts last."""
    copied, folder = os.path.join(out, "tools"), os.path.join(out, "lib")
    shutil.copytree(TOOLS, copied, ignore=shutil.ignore_patterns("__pycache__"))
    os.mkdir(folder)
    tool = {"command": os.path.join(copied, "explain.py"), "PECHUVO_LIBRARY": ""}
    if archive.installed() is None:
        words = "number and place are this tool's own and not the archive's"
        hold_run(0, words, mesh, claim, **tool)
        picture = os.path.join(out, "own.svg")
        run(mesh, claim, "--svg", picture, **tool)
        hold(b"own: no archive is here" in content(picture), "whose number it is, in the picture")
    shared_library(os.path.join(folder, archive.SONAME))
    hold_run(0, "number, place and report are the archive's", mesh, claim, **tool, LD_LIBRARY_PATH=folder)
    fake_library(os.path.join(folder, archive.SONAME))
    hold_run(3, "THE TWO ANSWERS DIFFER", mesh, claim, **tool, LD_LIBRARY_PATH=folder)
    hold_run(0, "number, place and report are the archive's", mesh, claim, PECHUVO_LIBRARY="", LD_LIBRARY_PATH=folder)
