"""`run --why`: the lines, beside those that follow from other commands and from the tables of `docs/DOCUMENT.md`.

A run of a transaction at an opening is what `serial` prints of it on the objects that `carry` prints of the transactions
before the opening. Its operations are compared by the tables with what the earlier runs of the round leave.
"""

import json
import pathlib
import random
import re

import interpreter
import randoms

ROOT = pathlib.Path(__file__).resolve().parent.parent
EXAMPLES = ROOT / "examples"

# How `docs/DOCUMENT.md` cuts a line.
PARTS = re.search(r're\.fullmatch\(r"(.*?)", line\)', (ROOT / "docs" / "DOCUMENT.md").read_text())[1]
PLANS = ([], ["--workers", "1"], ["--workers", "64", "--cut", "1"])

# Transactions on an account of 100, and their lines.
TRANSACTIONS = (
    ("a chain takes a round each",
     '[{"op":["till","withdraw",50]}],[{"op":["till","withdraw",40]}],[{"op":["till","balance"]}]',
     ("why 1 2.1 till withdraw 40 = ok after 1.1 till withdraw 50 = ok",
      "why 2 3.1 till balance = 50 after 2.1 till withdraw 40 = ok")),
    ("deposits commute, and the first withdrawal is the earlier one",
     '[{"op":["till","deposit",5]}],[{"op":["till","deposit",6]},{"op":["till","withdraw",60]}],'
     '[{"op":["till","deposit",1]},{"op":["till","withdraw",70]}]',
     ("why 1 3.2 till withdraw 70 = ok after 2.2 till withdraw 60 = ok",)),
    ("an aborted body of the later run conflicts",
     '[{"op":["till","deposit",5]}],[{"sub":[{"op":["till","balance"]},{"abort":true}],'
     '"handler":[{"op":["till","deposit",1]}]}]',
     ("why 1 2.1.b.1 till balance = 100 after 1.1 till deposit 5 = ok",)),
    ("of the earlier run a handler is left, and an aborted body isn't",
     '[{"sub":[{"op":["till","withdraw",5]},{"abort":"late"}],'
     '"handlers":{"late":[{"op":["till","withdraw",7]}]}}],[{"op":["till","withdraw",9]}]',
     ("why 1 2.1 till withdraw 9 = ok after 1.1.h:late.1 till withdraw 7 = ok",)),
    ("children and branches have paths",
     '[{"parallel":[{"sub":[{"op":["till","deposit",5]}]},{"sub":[{"op":["till","withdraw",6]}],"as":"two"}]},'
     '{"if":"two","is":"committed","then":[{"op":["till","deposit",1]}]}],'
     '[{"op":["till","balance"],"as":"all"},{"if":"all","atleast":1,"then":[],"else":[{"op":["till","deposit",1]}]}]',
     ("why 1 2.1 till balance = 100 after 1.1.1.b.1 till deposit 5 = ok",)),
    ("an aborted transaction leaves nothing, and one round has no line",
     '[{"op":["till","withdraw",5]},{"abort":true}],[{"op":["till","withdraw",9]}]', ()),
    ("no transaction has no line", "", ()),
)


class Run:
    """The operations of a run, each as path, object, operation and reply; and those that the run leaves."""

    def __init__(self, number, report):
        lines = [line.split(" ", 2) for line in report.splitlines() if line[0] in "TSO"]
        undone = [path + ".b." for sort, path, rest in lines if sort == "S" and rest.startswith("aborted")]
        left = lines[0][2].startswith("committed")
        self.entries, self.net = [], []
        for sort, path, rest in lines:
            if sort == "O":
                call, reply = rest.split(" = ")
                target, *words = call.split()
                entry = interpreter.Entry("%d%s" % (number, path[1:]), target, tuple(words), reply)
                self.entries.append(entry)
                if left and not any(path.startswith(body) for body in undone):
                    self.net.append(entry)


def text_of(program, command, document):
    out, status, _ = program.run([command], json.dumps(document).encode())
    return out.decode() if status == 0 else None


def lines_of(program, document):
    """The lines that follow, or None where some objects of an opening can't be carried."""
    kinds = {one["name"]: one["kind"] for one in document["objects"]}
    transactions, lines, opening = document["transactions"], [], 0
    while opening < len(transactions):
        carried = text_of(program, "carry", dict(document, transactions=transactions[:opening]))
        if carried is None:
            return None
        at, nets, place, met = dict(json.loads(carried), ordtx=document["ordtx"]), [], opening, None
        while place < len(transactions):
            run = Run(place + 1, text_of(program, "serial", dict(at, transactions=[transactions[place]])))
            met = interpreter.first_conflict(kinds, run.entries, nets)
            if met:
                break
            nets += run.net
            place += 1
        if met:
            lines.append("why %d %s after %s\n" % (len(lines) + 1, *met))
        opening = place
    return "".join(lines)


def try_places(program, name, report, lines):
    """Both operations are in the report with their paths and calls, and the earlier one with its reply."""
    shown = dict(line[2:].split(" ", 1) for line in report.decode().splitlines() if line.startswith("O "))
    for line in lines.splitlines():
        number, path, call, _, earlier_path, earlier_call, reply = re.fullmatch(PARTS, line).groups()
        program.compare("%s: %s" % (name, line), ["run", "--why"],
                        (shown.get(path, "").split(" = ")[0], shown.get(earlier_path)), (call, "%s = %s" % (earlier_call, reply)))


def try_document(program, name, document):
    given = json.dumps(document).encode()
    report, status, _ = program.run(["run"], given)
    lines = lines_of(program, document) if status == 0 else None
    if lines is None:
        return
    try_places(program, name, report, lines)
    for plan in PLANS:
        program.expect(name, ["run", "--why", *plan], given, report + lines.encode())
    audit = program.run(["run", "--audit"], given)[0]
    program.expect(name, ["run", "--audit", "--why"], given, audit + lines.encode())


def try_transactions(program):
    for name, transactions, lines in TRANSACTIONS:
        given = ('{"ordtx":4,"objects":[{"name":"till","kind":"account","start":100}],"transactions":[%s]}'
                 % transactions).encode()
        report = program.run(["run"], given)[0]
        program.expect(name, ["run", "--why"], given, report + "".join(line + "\n" for line in lines).encode())


def try_all(program, cases):
    try_transactions(program)
    for file in sorted(cases.glob("*.json")) + sorted(EXAMPLES.glob("*.json")):
        if not file.with_suffix(".fault").exists():
            document = json.loads(file.read_bytes())
            if len(document["transactions"]) <= 40:
                try_document(program, file.stem, document)
    chance = random.Random(7)
    for number in range(150):
        try_document(program, "a random document, %d" % number, randoms.whole(chance))
    program.expect("a refused document", ["run", "--why"], b"{", b"", 1, b"fault 1 transaction 0\n")
