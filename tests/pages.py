"""What the pages show: the examples with their reports, and the faults with their documents."""

import json
import pathlib
import re
import shlex
import shutil
import subprocess

from places import part_at

ROOT = pathlib.Path(__file__).resolve().parent.parent
FAULT = re.compile(r"^    (fault (\d+) transaction (\d+) at(?: (/\S*))?(?: line \d+ column \d+)?)$")
JQ = re.compile(r"^    (jq -c --arg at .*) FILE$", re.M)


def try_examples(program):
    for document in sorted((ROOT / "examples").glob("*.json")):
        program.expect_report(document.stem, document.read_bytes(),
                              document.with_suffix(".txt").read_bytes())


def try_version(program):
    """The program, the newest entry of the changelog and the manual pages have one version."""
    version = program.run(["--version"])[0].decode().split()[-1]
    pages = {"CHANGELOG.md": r"^## \[(.+?)\]", "docs/ordtx.1": r'^\.TH .* "ordtx (.+?)"', "docs/ordtx.5": r'^\.TH .* "ordtx (.+?)"'}
    for page, pattern in pages.items():
        found = re.search(pattern, (ROOT / page).read_text(), re.M)
        program.compare("the version of " + page, ["--version"], (found and found[1],), (version,))


def try_pointer(program, words, document, pointer):
    """The page's line of `jq`, with another pointer."""
    words = shlex.split(words)
    words[words.index("at") + 1] = pointer
    done = subprocess.run(words, input=document, stdout=subprocess.PIPE, stderr=subprocess.PIPE)
    part = json.loads(done.stdout) if done.returncode == 0 else None
    program.compare("jq with " + pointer, words, (part, done.stderr),
                    (part_at(json.loads(document), pointer), b""))


# A document with a fault at a member whose name has signs that are escaped in a pointer.
ESCAPED = (b'{"ordtx":4,"objects":[],"transactions":[[{"abort":true,"a/b~c d":1}]]}', "/transactions/0/0/a~1b~0c d")


def try_faults(program):
    """Each fault's section: a document, the lines that `locate` prints for it, and a document that is read."""
    text = (ROOT / "docs" / "FAULTS.md").read_text()
    shown = 0
    for section in text.split("\n## ")[1:]:
        document = None
        lines = section.splitlines()
        for line, next_line in zip(lines, lines[1:] + [""]):
            fault = FAULT.match(line)
            if line.startswith("    {") and document is None:
                document = line.strip().encode()
            elif line.startswith("    {"):
                words = ["check"]
                out, status, err = program.run(words, line.strip().encode())
                program.compare("mended: " + section.split("\n")[0], words,
                                (status, err), (0, b""))
            elif fault and document is not None:
                name = section.split("\n")[0]
                program.expect_fault_everywhere(name, document, int(fault[2]), int(fault[3]))
                program.expect(name, ["locate"], document, ("%s\n%s\n" % (fault[1], next_line.strip())).encode(), 1)
                if fault[4] and fault[4].startswith("/") and shutil.which("jq"):
                    try_pointer(program, JQ.search(text)[1], document, fault[4])
                shown += 1
    program.compare("faults that are shown", [], (shown,), (12,))
    document, pointer = ESCAPED
    out, status, err = program.run(["locate"], document)
    program.compare("an escaped name", ["locate"], (pointer.encode() in out, status, err), (True, 1, b""))
    if shutil.which("jq"):
        try_pointer(program, JQ.search(text)[1], document, pointer)


# Steps that get fault 7, each with those of the page's lines that list it, and one that gets none.
WRONG_ARGUMENTS = (
    (["a", "deposit", 0], "1"), (["a", "deposit", -1], "1"), (["a", "deposit", 10 ** 12 + 1], "1"), (["a", "deposit", 5.5], "14"),
    (["a", "deposit", 5.0], "4"), (["a", "withdraw", 1e30], "14"), (["a", "deposit", "5"], "1"), (["a", "withdraw"], "1"),
    (["q", "enq", 5], "2"), (["q", "enq", None], "2"), (["a", "deposit", {"fron": "x"}], "3"),
    (["q", "enq", {"from": 5}], "3"), (["a", "deposit", 5], ""),
)


def try_lines(program):
    """The page's lines for a shell: each runs on its section's document; those of fault 7 list what they say."""
    text = (ROOT / "docs" / "FAULTS.md").read_text()
    for section in text.split("\n## ")[1:]:
        found = re.search(r"^    (\{.*)", section, re.M)
        for line in re.findall(r"^    (jq .*|grep .*) FILE$", section, re.M):
            program_of_line, *words = shlex.split(line)
            if not found or section.startswith("1:") or not shutil.which(program_of_line):
                continue
            done = subprocess.run([program_of_line, *words], input=found[1].encode(), capture_output=True)
            program.compare("the line %s" % line, [section.split("\n")[0]], (done.returncode < 2, done.stderr), (True, b""))
    section = text.split("\n## 7:")[1].split("\n## ")[0]
    lines = re.findall(r"^    (jq .*|grep .*) FILE$", section, re.M)
    objects = [{"name": "a", "kind": "account", "start": 0}, {"name": "q", "kind": "queue", "start": []}]
    for step, numbers in WRONG_ARGUMENTS if shutil.which("jq") else ():
        document = json.dumps({"ordtx": 4, "objects": objects, "transactions": [[{"op": step}]]}).encode()
        err = program.run(["check"], document)[2]
        listed = [str(number) for number, line in enumerate(lines, 1)
                  if subprocess.run(shlex.split(line), input=document, capture_output=True).stdout]
        program.compare("the lines that list %s" % step, [], ("".join(listed), err), (numbers, b"fault 7 transaction 1\n" if numbers else b""))


def shown_in(page):
    """The indented blocks of a page, or those of a manual page between `.RS` and `.RE`."""
    text = page.read_text()
    if page.suffix == ".md":
        found = re.findall(r"(?:^    .*\n)+", text, re.M)
        return [re.sub(r"^    ", "", block, flags=re.M) for block in found]
    return [block.replace("\\-", "-") for block in re.findall(r"^\.RS 4\n(.*?)^\.RE$", text, re.M | re.S)]


def try_shown(program):
    """A document that a page shows, and the report that it shows after it."""
    for name in ("README.md", "docs/ordtx.1", "docs/ordtx.5"):
        document = None
        reports = 0
        for block in shown_in(ROOT / name):
            for part in re.split(r"^\$ .*\n", block, flags=re.M):
                if part.startswith("{") and ".." not in part:
                    document = json.dumps(json.loads(part)).encode()
                elif part.startswith("T "):
                    program.expect(name, ["run"], document, part.encode())
                    reports += 1
        program.compare("reports that %s shows" % name, [], (reports,), (1,))


def try_all(program):
    try_examples(program)
    try_version(program)
    try_faults(program)
    try_lines(program)
    try_shown(program)
