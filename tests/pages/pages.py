"""The pages of this repository: pages.py OUT, where OUT is what 'make BUILD=OUT' built. Every path that they name is
there; every script has its run bit; no table is cut; quick commands, run as they stand but for OUT in place of target,
end with the status and the words that are said of them."""

import fnmatch
import os
import re
import subprocess
import sys

PAGES = (
    "README.md",
    "docs/FILES.md",
    "docs/LINKING.md",
    "docs/SPEED.md",
    "docs/OTHER-MAKES.md",
    "tests/README.md",
    "tools/README.md",
    "bindings/README.md",
)

# Words of commands that aren't run here: they take long, want a tool or a file of the reader's, or leave something.
LEFT_OUT = (
    "rt run", ".ci/run", "make install", "make ", "apt-get", "glpsol", "cargo", "program.c", "MESH", "FOLDER",
    "make_sheets", "measure_claims", "fuzz/run", "bench/run", "docs/pictures/make", "independent/many",
)

# A part of a command, the status that it ends with, and what it prints or leaves.
ANSWERS = (
    ("check sheets/worked.mesh sheets/worked.claim sheets/worked_below.claim", 0, "0 2 19.000000 20.000000"),
    ("target/check sheets/worked.mesh", 0, "0 0 20.000000 20.000000"),
    ("check sheets/worked_below.mesh", 0, "0 2 19.000000 20.000000"),
    ("check sheets/footing_12.mesh", 0, "0 0 50.086956 50.086957"),
    ("check docs/pictures/footing_forgotten.mesh", 0, "0 0 55.848101 55.848102"),
    ("explain.py sheets/seam_fault.mesh", 1, "refused with 22 at row 37"),
    ("explain.py sheets/worked_below.mesh", 0, "open rows, 2 in all"),
    ("check sheets/table_slope.mesh", 0, "0 56 13.318470 13.330677"),
    # Some of the sheets are refused on purpose.
    ("xargs -P 4", 123, ""),
    ("target/stack 69632", 0, "the most:"),
    ("bindings/python/example.py", 0, "carried 20, limit 20, claims 1"),
)


def fail(*words):
    print("FAILED:", *words)
    sys.exit(1)


def repository():
    """Every file and folder, without what is built."""
    found = set()
    for folder, folders, files in os.walk("."):
        folders[:] = [name for name in folders if name not in (".git", "target", "out", "__pycache__")]
        found |= {os.path.relpath(os.path.join(folder, name)) for name in (*folders, *files)}
    return found


def lines_of_code(text):
    """The lines that stand as code, and whether they are in a shell's words: those of ``` blocks are not."""
    fenced = False
    for line in text.split("\n"):
        if line.startswith("```"):
            fenced = not fenced
        elif not fenced and line.startswith("    "):
            yield line[4:]


def commands_of(text):
    """Commands with their lines joined and their remarks off."""
    joined = "\n".join(lines_of_code(text)).replace("\\\n", " ")
    return [command for command in (re.sub(r"\s+# .*$", "", line).strip() for line in joined.split("\n")) if command]


def named_paths(text, tops):
    """The words of a page that look like paths from the repository's top."""
    quoted = re.findall(r"`([^`\n]+)`", text) + commands_of(text)
    words = {word.strip("(),;:.'\"") if not word.startswith(".") else word for part in quoted for word in part.split()}
    paths = (re.sub(r"^-[A-Z]", "", word).rstrip("/") for word in words)
    return {path for path in paths if "/" in path and path.split("/")[0] in tops and "NAME" not in path}


def hold_paths(page, text, found):
    tops = {path for path in found if "/" not in path}
    for path in named_paths(text, tops):
        # A sheet is named without the endings of its files.
        there = any(fnmatch.fnmatchcase(known, path) or known == f"{path}.mesh" for known in found)
        if "/out" not in path and not there:
            fail(f"{page} names {path}, which isn't there")
    for link in re.findall(r"\]\(([^)#]+)\)", text):
        if os.path.normpath(os.path.join(os.path.dirname(page), link)) not in found:
            fail(f"{page} shows {link}, which isn't there")
    names = {os.path.basename(path) for path in found}
    for name in re.findall(r"`([\w-]+\.(?:py|md|rs|rt|c|h|antt))`", text):
        if name not in names:
            fail(f"{page} names {name}, which isn't there")


def hold_tables(found):
    """In every page, a table goes on from its head, with no blank line in it: its second line is of dashes."""
    for page in found:
        if page.endswith(".md"):
            with open(page, encoding="utf-8") as file:
                blocks = re.split(r"\n{2,}", re.sub(r"^```.*?^```", "", file.read(), flags=re.DOTALL | re.MULTILINE))
            for block in blocks:
                rows = [line for line in block.split("\n") if line.startswith("|")]
                if rows and not (len(rows) > 1 and re.fullmatch(r"[|:\- ]+", rows[1])):
                    fail(f"{page}: a table without its head: {rows[0]}")


def hold_run_bits(found):
    """The files that begin as scripts do are those that can be run."""
    for path in found:
        if os.path.isfile(path):
            with open(path, "rb") as file:
                script = file.read(2) == b"#!"
            if script != bool(os.stat(path).st_mode & 0o111):
                fail(f"{path} is a script without its run bit, or has one and is none")


def hold_command(page, command, found, out):
    """Runs a command, unless it is left out."""
    first = re.sub(r"^\(cd \S+ && ", "", command).split()[0]
    if first in found and not os.access(first, os.X_OK):
        fail(f"{page} calls {first}, which has no run bit")
    if any(word in command for word in LEFT_OUT) or command in ("make", "make shared"):
        return 0
    built = re.sub(r"\btarget/(?!staticlib)", out + "/", command)
    library = {"PECHUVO_LIBRARY": f"{out}/shared/libpechuvo.so", "PYTHONDONTWRITEBYTECODE": "1"}
    done = subprocess.run(["bash", "-c", built], capture_output=True, text=True, env={**os.environ, **library})
    status, words = next((answer[1:] for answer in ANSWERS if answer[0] in command), (0, ""))
    printed = " ".join((done.stdout + done.stderr).split())
    if done.returncode != status or words not in printed or "Traceback" in printed:
        fail(f"{page}: {command}: status {done.returncode}, {printed[:400]}")
    return 1


def main():
    out, found, ran = sys.argv[1], repository(), 0
    hold_run_bits(found)
    hold_tables(found)
    for page in PAGES:
        with open(page, encoding="utf-8") as file:
            text = file.read()
        hold_paths(page, text, found)
        ran += sum(hold_command(page, command, found, out) for command in commands_of(text))
    if ran < len(ANSWERS):
        fail(f"only {ran} commands were run")
    print(f"{len(PAGES)} pages, {ran} commands")


if __name__ == "__main__":
    main()
