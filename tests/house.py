"""No count of `tools/house` is above what is written there, and the table of `tools/believed` is the one that is shown. The pages
that speak of each crate have them all, and a promise names each wrong body."""

import pathlib
import re
import subprocess
import sys

ROOT = pathlib.Path(__file__).resolve().parent.parent

# Crates of tests, benchmarks and the program: README's table of what is proved doesn't have them.
OUTSIDE = re.compile(r"bench_|tests_|ordtx_cli$")


def first_cells(page):
    """The names in the first cells of a page's tables."""
    return set(re.findall(r"`(\w+)`", " ".join(re.findall(r"^\|([^|]*)\|", page, re.M))))


def unlisted():
    """The crates that a page leaves out, and the wrong bodies that no promise names."""
    readme, architecture, promises, definitions = (
        (ROOT / name).read_text() for name in ("README.md", "docs/ARCHITECTURE.md", "docs/PROMISES.md", "docs/DEFINITIONS.md"))
    for line in (ROOT / "crates.txt").read_text().splitlines():
        if line.startswith("#") or ":" not in line:
            continue
        crate = line.split(":")[0].split()[0]
        if crate not in first_cells(architecture):
            yield "docs/ARCHITECTURE.md", crate
        if "`%s`" % crate not in promises:
            yield "docs/PROMISES.md", crate
        if OUTSIDE.match(crate):
            continue
        if crate not in first_cells(readme):
            yield "README.md", crate
        if list((ROOT / "crates" / crate).glob("specs/[!L]*.antt")) and "`%s/specs" % crate not in definitions:
            yield "docs/DEFINITIONS.md", crate
    for edit in ROOT.glob("crates/*/must-fail/*.edit"):
        if "`%s`" % edit.stem not in promises:
            yield "docs/PROMISES.md", edit.stem


def try_all(program):
    for tool in ("house", "believed"):
        done = subprocess.run([sys.executable, "-B", str(ROOT / "tools" / tool)], stdout=subprocess.PIPE, check=False)
        program.compare("counts\n" + done.stdout.decode(), ["tools/" + tool], (None, done.returncode, None), (None, 0, None))
    program.compare("pages", [], (sorted(unlisted()),), ([],))
