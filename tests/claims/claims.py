"""Tests of tools/claim_from_solver.py; ends with words where something isn't as it should be."""

import os
import random
import shutil
import subprocess
import sys
import tempfile

HERE = os.path.dirname(os.path.abspath(__file__))
ROOT = os.path.dirname(os.path.dirname(HERE))
TOOLS = os.path.join(ROOT, "tools")
SHEETS = os.path.join(ROOT, "sheets")
sys.path.insert(0, TOOLS)

import archive
import rows as exact
from capped_multipliers import with_friction, without_friction
from measure_claims import kind_of
from pair_lattice import pair_lattice
from plane_multipliers import plane_multipliers
from polygon_sides import side_table
from random_meshes import random_mesh

# The stored results: the status, and the most that each part may be off the result's load, relative to it. They were
# written by tools/claim_from_solver.py MESH --keep RESULT, for bedded with --margin 0.00003.
# cohesionless: no field has room in the strength rows of its free surface.
STORED = {
    "worked": (0, 0, 0),
    "footing": (3, 1e-5, 1e-2),
    "bedded": (0, 1e-4, 1e-3),
    "cohesionless": (3, 1e-6, None),
}
# Random meshes by number, small ones: a field alone is made, or both parts.
FIELDS, BOTH = (4, 8, 11), (2, 28)
# A random mesh whose multipliers are whole motions (motion_search.py): there are none by other ways.
MOVED = 57
# A random mesh on which n up to 100,000 leaves no field within 0.1 % of the optimum.
RULED_OUT = 77


def ends(what, done):
    raise SystemExit(f"FAILED: {what}\nstatus {done.returncode}\n{done.stdout}{done.stderr}")


def run(*words, path=None):
    environment = dict(os.environ, PATH=path or os.environ["PATH"])
    command = [sys.executable, os.path.join(TOOLS, "claim_from_solver.py"), *words]
    return subprocess.run(command, stdout=subprocess.PIPE, stderr=subprocess.PIPE, text=True, env=environment)


def expect(status, words, said, path=None):
    """Runs the tool; it must end so and say that, in words."""
    done = run(*words, path=path)
    everything = done.stdout + done.stderr
    if done.returncode != status or said not in everything or "Traceback" in everything:
        ends(f"claim_from_solver.py {' '.join(words)}: not status {status} with '{said}'", done)
    return done


def read(path):
    with open(path, "rb") as file:
        return file.read()


def write(folder, name, data):
    path = os.path.join(folder, name)
    with open(path, "wb") as file:
        file.write(data)
    return path


def verdict(mesh, claim, table=None):
    """The verdict of rows.py, and of the archive where it is built: they must be one."""
    texts = read(mesh), read(table) if table else b"", read(claim)
    found, line = exact.check(*texts)
    answer = archive.check(*texts)
    if answer not in (None, (found.number, found.place, line)):
        raise SystemExit(f"FAILED: {claim}: the archive answers {answer}, rows.py {found}")
    if found.number:
        raise SystemExit(f"FAILED: {claim} is refused with {found.number} at {found.kind} {found.place}")
    return found


def stored_result(folder, name, no_solver):
    """A claim from a stored result, with no solver to be found."""
    mesh = os.path.join(SHEETS if name == "worked" else HERE, name + ".mesh")
    result, claim = os.path.join(HERE, name + ".solution"), os.path.join(folder, name + ".claim")
    status, field_off, limit_off = STORED[name]
    done = expect(status, [mesh, claim, "--solution", result], "checked by", no_solver)
    found = verdict(mesh, claim)
    load = float(next(line.split()[1] for line in read(result).decode().splitlines() if line.startswith("l ")))
    if found.n and not load * (1 - field_off) <= found.l / found.n:
        ends(f"{name}: the field is far from {load}", done)
    if limit_off is not None and found.w / found.m > load * (1 + limit_off):
        ends(f"{name}: the limit is far from {load}", done)


def mistakes(folder, no_solver):
    """Each is answered in words, and no file is lost."""
    mesh = os.path.join(SHEETS, "worked.mesh")
    text, count = read(mesh), 0
    own = write(folder, "own.mesh", text)
    link = os.path.join(folder, "link.claim")
    os.symlink(own, link)
    claim = os.path.join(folder, "new.claim")
    footing = os.path.join(HERE, "footing.mesh")
    result = read(os.path.join(HERE, "footing.solution")).decode()
    lines = result.splitlines()
    cases = [
        (1, [os.path.join(folder, "absent"), claim], "absent: No such file"),
        (1, [folder, claim], "Is a directory"),
        (1, [own, own], "would be written over"),
        (1, [own, link], "would be written over"),
        (1, [own, write(folder, "other.mesh", text)], "is no claim"),
        (1, [own, write(folder, "note.txt", b"dear reader")], "is no claim"),
        (1, [own, claim, "--lp", own], "would be written over"),
        (1, [own, "--mps", os.path.join(folder, "other.mesh")], "is a mesh or a claim"),
        (1, [own, claim, "--lp", claim], "two outputs have one name"),
        (1, [write(folder, "tabs.mesh", text.replace(b"  ", b"\t")), claim], "tabs"),
        (1, [write(folder, "cr.mesh", text.replace(b"\n", b"\r\n")), claim], "CR LF"),
        (1, [os.path.join(SHEETS, "worked.claim"), claim], "worked.claim is refused with 1 at line 1"),
        (1, [own, claim, "--table", own], "is refused with 1 at line 1001"),
        (1, [own, claim, own], "is refused with 1 at line 1001"),
        (1, [own, "--part", "field", claim, "--seconds", "0", own], "is refused with 1 at line 1001"),
        (2, [own, claim, own, "--table", own], "two tables"),
        (1, [own, os.path.join(folder, "absent", "new.claim"), "--solution", "/dev/null"], "no value of sx_1"),
        (1, [own, claim], "glpsol is not installed"),
        (2, [own], "is needed"),
        (2, [own, claim, "--margin", "2"], "--margin"),
        (1, [footing, claim, "--solution", write(folder, "short", "\n".join(lines[1:]).encode())], "no value of sx_1"),
        (1, [footing, claim, "--solution", write(folder, "twice", (result + lines[0]).encode())], "stands there twice"),
        (1, [footing, claim, "--solution", write(folder, "odd", (result + "strength_1 nan\n").encode())], "not a name"),
        (1, [footing, claim, "--solution", write(folder, "who", (result + "sx_999 1\n").encode())], "sx_999 is no"),
    ]
    for status, words, said in cases:
        expect(status, words, said, no_solver)
        count += 1
    if os.path.exists(claim) or read(own) != text or read(os.path.join(folder, "other.mesh")) != text:
        raise SystemExit("FAILED: a mistake wrote a claim, or over a mesh")
    return count


def programs(folder, no_solver):
    """The worked sheet's program in both formats, as they are stored."""
    mesh = os.path.join(SHEETS, "worked.mesh")
    paths = [os.path.join(folder, "worked" + end) for end in (".lp", ".mps")]
    expect(0, [mesh, "--lp", paths[0], "--mps", paths[1]], "rows, 13 unknowns", no_solver)
    for path in paths:
        if read(path) != read(os.path.join(HERE, os.path.basename(path))):
            raise SystemExit(f"FAILED: {path} isn't tests/claims/{os.path.basename(path)}")
    return paths


def solved(folder, programs):
    """glpsol's optimum of both formats is document 01's load."""
    for path, form in zip(programs, ("--lp", "--freemps")):
        out = os.path.join(folder, "solved")
        subprocess.run(["glpsol", form, path, "-w", out], stdout=subprocess.DEVNULL, check=True)
        optimum = next(line.split()[-1] for line in read(out).decode().splitlines() if line.startswith("s bas"))
        if abs(abs(float(optimum)) - 20) > 1e-6:
            raise SystemExit(f"FAILED: {path} has the optimum {optimum}")


def random_files(folder, number):
    """The paths of a random mesh and its table."""
    texts = [exact.text_of(lines) for lines in random_mesh(kind_of(number), number)]
    return [write(folder, name, text) for name, text in zip(("m.mesh", "m.table"), texts)]


def random_meshes(folder):
    """From glpsol on random meshes: each field is within 0.1 % of the optimum, and what multipliers there are fit.
    Returns how many there are."""
    multipliers = 0
    for number in FIELDS + BOTH:
        mesh, table = random_files(folder, number)
        claim, part = os.path.join(folder, f"{number}.claim"), "field" if number in FIELDS else "both"
        done = run(mesh, claim, "--table", table, "--part", part, "--seconds", "1")
        warned = [line for line in done.stderr.splitlines() if "multipliers" not in line]
        if done.returncode not in (0, 3) or warned or "checked by" not in done.stdout:
            ends(f"random mesh {number}", done)
        multipliers += verdict(mesh, claim, table).m is not None
    return multipliers


def whole_motions(folder):
    mesh, table = random_files(folder, MOVED)
    claim = os.path.join(folder, "moved.claim")
    words = [mesh, claim, "--table", table, "--part", "multipliers", "--seconds", "1"]
    expect(3, words, "whole motions")
    verdict(mesh, claim, table)


def answers():
    """What multipliers of a pair sum to is answered by multipliers within the limits that sum to the same."""
    chance, count = random.Random(1), 0
    for sides, most in ((12, 10_000), (20, 10_000), (36, 10_000), (108, 300)):
        table = side_table(sides)
        for _ in range(40):
            y = [chance.randint(0, 3 * most // sides) for _ in range(sides)]
            x, z = tuple(sum(m * step[k] for m, (step, _) in zip(y, table)) for k in range(2)), total(y, table)
            for found in (with_friction(sides, x, z, most), without_friction(sides, x, most)):
                same = found and all(sum(m * s[k] for m, (s, _) in zip(found, table)) == x[k] for k in range(2))
                if not same or not 0 <= min(found) <= max(found) <= most or total(found, table) > z:
                    raise SystemExit(f"FAILED: {sides} sides, V {x}, Z {z}: {found}")
            if total(with_friction(sides, x, z, most), table) != z:
                raise SystemExit(f"FAILED: {sides} sides, V {x}: not Z {z}")
            count += 2
        soil = exact.Soil(0, 1, 1, 10, (0, 0), (0, 0), 1, 5)
        for _ in range(0 if sides == 108 else 40):
            rows = pair_lattice(sides, soil).rows
            y = [chance.randint(0, most // 20) for _ in rows]
            wanted = tuple(sum(m * row[k] for m, row in zip(y, rows)) for k in range(2))
            found = plane_multipliers(sides, soil, wanted, most)
            if not found or tuple(sum(m * row[k] for m, row in zip(found, rows)) for k in range(2)) != wanted:
                raise SystemExit(f"FAILED: {sides} planes, {wanted}: {found}")
            count += 1
    return count


def total(y, table):
    return sum(m * z for m, (_, z) in zip(y, table))


def ruled_out(folder):
    """Where the limits leave no field near the optimum, the best one is written, and that is said."""
    mesh, table = random_files(folder, RULED_OUT)
    claim = os.path.join(folder, "far.claim")
    words = [mesh, claim, "--table", table, "--part", "field", "--seconds", "5"]
    expect(3, words, "by an integer search, which finds none within 0.3 %")
    verdict(mesh, claim, table)


def main():
    with tempfile.TemporaryDirectory() as folder:
        # A path without glpsol, so that nothing leans on it unseen; gcc and its linker serve to load the archive.
        no_solver = os.path.join(folder, "bin")
        os.mkdir(no_solver)
        for tool in filter(shutil.which, ("gcc", "ld")):
            os.symlink(shutil.which(tool), os.path.join(no_solver, tool))
        for name in STORED:
            stored_result(folder, name, no_solver)
        count = mistakes(folder, no_solver)
        texts = programs(folder, no_solver)
        print(f"{answers()} sums of a pair's multipliers answered")
        by = "the archive and rows.py" if archive.library() else "rows.py alone"
        print(f"{len(STORED)} stored results, {count} mistakes, 2 formats; claims checked by {by}")
        if not shutil.which("glpsol"):
            print("left out: random meshes, for glpsol isn't here")
            return
        solved(folder, texts)
        multipliers = random_meshes(folder)
        whole_motions(folder)
        ruled_out(folder)
        print(f"{len(FIELDS + BOTH) + 2} random meshes with glpsol, of them {multipliers + 1} with multipliers")


if __name__ == "__main__":
    main()
