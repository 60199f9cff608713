"""`examples/parts.py`: documents cut into independent ones, whose reports are joined to that of the whole."""

import importlib
import json
import pathlib
import random
import subprocess
import sys
import tempfile

import randoms

ROOT = pathlib.Path(__file__).resolve().parent.parent
SCRIPT = ROOT / "examples" / "parts.py"
RANDOM = 200


def script():
    sys.path.insert(0, str(SCRIPT.parent))
    return importlib.import_module("parts")


def run(*words):
    done = subprocess.run([sys.executable, "-B", SCRIPT, *words], capture_output=True)
    return done.stdout, done.returncode, done.stderr.decode()


def apart(chance):
    """Transactions that mostly have objects of their own, which stand among those of the others; some items are the same."""
    document = randoms.long(chance, chance.randrange(1, 6), chance.randrange(4), apart=False)
    wholes = [randoms.whole(chance) for _ in range(chance.randrange(1, 6))]
    objects, blocks = [], []
    for owner, one in enumerate((document, *wholes)):
        text = json.dumps(one)
        for held in one["objects"]:
            text = text.replace('"%s"' % held["name"], '"w%d_%s"' % (owner, held["name"]))
        objects += json.loads(text)["objects"]
        blocks += json.loads(text)["transactions"]
    chance.shuffle(objects)
    chance.shuffle(blocks)
    return {"ordtx": 5, "objects": objects, "transactions": blocks}


def try_document(program, parts, name, document, folder, most):
    """Each part is read, and no two parts have an object; the joined report is that of the whole."""
    made, index = parts.cut(document, most)
    (folder / "parts.json").write_text(json.dumps(index))
    names = []
    for number, part in enumerate(made, 1):
        report, status, err = program.run(["serial"], json.dumps(part).encode())
        program.compare("%s, part %d of %d" % (name, number, len(made)), ["serial"], (None, status, err), (None, 0, b""))
        (folder / ("part-%d.txt" % number)).write_bytes(report)
        names += [one["name"] for one in part["objects"]]
    program.compare("the objects of the parts of " + name, [], (sorted(names),), (sorted(one["name"] for one in document["objects"]),))
    program.compare("at most %d parts of %s" % (most, name), [], (len(made) <= most,), (True,))
    report, _, _ = program.run(["serial"], json.dumps(document).encode())
    program.compare(name + ", joined", [], ("".join(parts.joined(folder)).encode(),), (report,))
    return len(made)


def try_documents(program, parts, folder):
    files = [file for place in ("examples", "tests/cases") for file in sorted((ROOT / place).glob("*.json"))]
    for file in files:
        if not file.with_suffix(".fault").exists():
            try_document(program, parts, file.stem, json.loads(file.read_bytes()), folder, 10_000)
    chance, counts = random.Random(20261127), []
    for number in range(RANDOM):
        document = randoms.whole(chance) if number % 4 == 0 else apart(chance)
        counts.append(try_document(program, parts, "random document %d" % number, document, folder, chance.choice((1, 2, 3, 10_000))))
    program.compare("documents of several parts", [], (sum(count > 1 for count in counts) > RANDOM / 3,), (True,))
    own = {"ordtx": 4, "objects": [{"name": "o%d" % n, "kind": "set", "start": ["x%d" % (n % 7), "x0"][:n % 7 + 1]} for n in range(1_000)],
           "transactions": [[{"op": ["o%d" % (n * 7 % 1_000), "insert", "x%d" % (n % 11)]}] for n in range(5_000)]}
    program.compare("parts of a thousand sets", [], (try_document(program, parts, "a thousand sets", own, folder, 10_000),), (1_000,))
    try_document(program, parts, "a thousand sets", own, folder, 16)


def try_script(program, folder):
    """The script with its files, and what it refuses."""
    file, made = folder / "whole.json", folder / "made"
    file.write_bytes((ROOT / "examples" / "ledger.json").read_bytes())
    program.compare("parts.py cut", [], run("cut", file, made, "--most", "2"), (b"", 0, ""))
    found = sorted(one.name for one in made.iterdir())
    program.compare("the files of parts.py", [], (found,), (["part-1.json", "part-2.json", "parts.json"],))
    program.compare("a folder that is there", [], run("cut", file, made), (b"", 1, "%s: Directory not empty\n" % made))
    program.compare("a report that is not there", [], run("join", made), (b"", 1, "%s/part-1.txt: No such file or directory\n" % made))
    for number in 1, 2:
        report, _, _ = program.run(["serial", str(made / ("part-%d.json" % number))])
        (made / ("part-%d.txt" % number)).write_bytes(report)
    whole, _, _ = program.run(["serial", str(file)])
    program.compare("parts.py join", [], run("join", made), (whole, 0, ""))
    second = made / "part-2.txt"
    report = second.read_bytes()
    lines = report.splitlines(keepends=True)
    for wrong, place, message in (
            (report[:-1], ":%d" % len(lines), "this is no line of `ordtx serial`, or not in its place"),
            (b"".join(lines[:-1]), "", "not the whole report of its part"),
            (b"", "", "not the whole report of its part"),
            (report + b"rounds 1\n", ":%d" % (len(lines) + 1), "this is no line of `ordtx serial`, or not in its place"),
            (b"".join(lines[1:]), ":1", "this is no line of `ordtx serial`, or not in its place")):
        second.write_bytes(wrong)
        program.compare("a part's report %.60r" % wrong, [], run("join", made), (b"", 1, "%s%s: %s\n" % (second, place, message)))
    for text in b"", b"[1]", b'{"ordtx":4', b"[" * 5_000, b'{"ordtx":4,"objects":[],"transactions":[[{"op":["a","balance"]}]]}':
        file.write_bytes(text)
        program.compare("parts.py cut of %.60r" % text, [], run("cut", file, folder / "none"),
                        (b"", 1, "%s: no document that `ordtx check` takes\n" % file))
    program.compare("what is left of it", [], (sorted(one.name for one in folder.iterdir() if one.suffix != ".txt"),),
                    (["made", "parts.json", "whole.json"],))


def try_all(program):
    with tempfile.TemporaryDirectory() as folder:
        try_documents(program, script(), pathlib.Path(folder))
        try_script(program, pathlib.Path(folder))
