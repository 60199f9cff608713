"""The program beside `interpreter.py`, which follows the page of documents alone: small random documents, and the cases."""

import json
import pathlib
import random
import re

import interpreter
import randoms

CASES = pathlib.Path(__file__).with_name("cases")
DOCUMENTS, SEED = 400, 6
# How `randoms.py` is asked for many arguments from labels, and for aborts whose reasons have handlers.
OPTIONS = {"version": 5, "most": 6, "steps": 4, "weight": 4, "reasons": randoms.NAMES[:2]}

# What many of the random documents must have, by their lines: the document's own, and those of the report.
MET = {
    "an argument from a label": r'"from"',
    "an operation whose `else` aborts": r"^O (\S+) .*\nA \1\b",
    "an abort for a reason": r"^A \S+ \S+$",
    "a handler for a reason": r"^\S \S+\.h:\S+ ",
    "a child of a parallel step": r"^S [0-9.]+\.[0-9]+\.[0-9]+ ",
    "a second round": r"^rounds [2-9]$",
}
MANY = 20

# What chance hardly makes: the kind of an object `o`, its start, and a transaction.
RARE = (
    ("items that handlers name first", "set", [],
     [{"sub": [], "handlers": {"b": [{"op": ["o", "insert", "y"]}], "a": [{"op": ["o", "insert", "x"]}]}},
      {"op": ["o", "insert", "y"]}, {"op": ["o", "insert", "x"]}]),
    ("a balance too large for an argument", "account", 10 ** 12 + 1,
     [{"op": ["o", "balance"], "as": "all"}, {"op": ["o", "withdraw", {"from": "all"}]}]),
)


def text_of(lines):
    return "".join(line + "\n" for line in lines).encode()


def try_document(program, name, document):
    """Each command that runs the document prints what follows from the page. Returns the report."""
    given, lines = json.dumps(document).encode(), interpreter.report(document)
    rounds, counts, why = interpreter.rounds(document)
    report, carried = text_of([*lines, "rounds %d" % rounds]), interpreter.carried(document)
    program.expect(name, ["serial"], given, text_of(lines))
    program.expect(name, ["run"], given, report)
    program.expect(name, ["run", "--audit"], given, report + text_of("runs %d %d" % one for one in sorted(counts.items())))
    program.expect(name, ["run", "--why"], given, report + text_of(why))
    if carried is None:
        program.expect(name, ["carry"], given, b"", 1, None)
    else:
        program.expect(name, ["carry"], given, carried.encode())
    return report


def try_cases(program):
    for file in sorted(CASES.glob("*.report")):
        report = try_document(program, file.stem, json.loads(file.with_suffix(".json").read_bytes()))
        program.compare(file.stem, ["interpreter.py"], (report,), (file.read_bytes(),))


def try_rare(program):
    for name, kind, start, block in RARE:
        objects = [{"name": "o", "kind": kind, "start": start}]
        try_document(program, name, {"ordtx": 5, "objects": objects, "transactions": [block]})


def try_all(program):
    try_cases(program)
    try_rare(program)
    chance, texts = random.Random(SEED), []
    for number in range(DOCUMENTS):
        document = randoms.whole(chance, **OPTIONS)
        report = try_document(program, "a random document, %d" % number, document)
        texts.append(json.dumps(document) + "\n" + report.decode())
    for name, lines in MET.items():
        count = sum(bool(re.search(lines, text, re.MULTILINE)) for text in texts)
        program.compare("%s, in %d of %d random documents" % (name, count, DOCUMENTS), [], (count >= MANY,), (True,))
