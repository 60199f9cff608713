"""Each request for memory refused in turn, until a run meets no refusal."""

import json

import documents
import preloaded
from places import placed

FAULT = (b"", 1, b"fault 20 transaction 0\n")


def refuse(library, number, words, path, document):
    """What a run returns whose Nth request is refused, and how many it made."""
    got, made, _started = preloaded.run(library, number, words, path, document)
    return got, made


def try_loops(program, library, path):
    """The loops over objects, views and lists: what a refused call leaves is unchanged."""
    number, made = 0, 1
    while number <= made:
        number += 1
        got, made = refuse(library, number, [], path, b"")
        word = b"unchanged" if number <= made else b"whole"
        program.compare("loops, request %d refused" % number, [], got,
                        (word, 0, b""))


def turned_round(document):
    """The same document, its members in another order: it is read by small trees."""
    members = json.loads(document)
    return json.dumps({key: members[key] for key in reversed(members)}).encode()


def try_document(program, library, words, name, document, report, status=0):
    """Where a request is refused, there is the fault of memory, or the same answer without what was asked for."""
    number, made = 0, 1
    while number <= made:
        number += 1
        got, made = refuse(library, number, words, program.path, document)
        program.compare("%s, request %d refused" % (name, number), words, got,
                        (report, status, b"") if got[0] else FAULT)
    program.compare("%s, no request refused" % name, words, got,
                    (report, status, b""))


def try_tokens(program, library, case):
    """Where reading from tokens is refused memory, that is the fault at once: nothing more is asked for.

    What serves without the memory, as a list that was to be shortened, may ask once more."""
    document = case.with_suffix(".json").read_bytes()
    line = case.with_suffix(".check").read_bytes()
    whole = refuse(library, 0, ["check"], program.path, document)[1]
    for number in range(1, whole + 1):
        got, made = refuse(library, number, ["check"], program.path, document)
        name = "%s, request %d refused" % (case.name, number)
        program.compare(name, ["check"], got, FAULT if got[1] == 1 else (line, 0, b""))
        most = number if got[1] == 1 else whole + 1
        program.compare(name + ", what follows", ["check"], (made <= most, 0, b""), (True, 0, b""))


def try_case(program, library, words, case):
    document = case.with_suffix(".json").read_bytes()
    report = case.with_suffix(".report").read_bytes()
    try_document(program, library, words, case.name, document, report)
    try_document(program, library, words, case.name + " turned round",
                 turned_round(document), report)


def try_places(program, library, case):
    """Where a fault is, four blocks and a child deep, in the start of a set, and where the bytes are no JSON."""
    deep = [{"sub": [], "handlers": {"r": [{"parallel": [{"sub": []}, {"sub": [], "handler": [
        {"op": ["a", "balance"], "as": "n"}, {"if": "n", "atleast": 0, "then": [], "else": [{"op": ["b", "balance"]}]}]}]}]}}]
    starts = [{"name": "a", "kind": "account", "start": 0}, {"name": "s", "kind": "set", "start": ["x", "x"]}]
    for name, objects, transactions, line, words in (
            ("a fault deep in a transaction", starts[:1], [[], deep],
             "fault 5 transaction 2 at /transactions/1/0/handlers/r/0/parallel/1/handler/1/else/0",
             b'no object has the name "b"\n'),
            ("a fault of a start", starts, [], "fault 13 transaction 0 at /objects/1/start/1", b'"x" is there twice\n')):
        document = json.dumps({"ordtx": 4, "objects": objects, "transactions": transactions}).encode()
        for way, given in (("", document), (", turned round", turned_round(document))):
            try_document(program, library, ["locate"], name + way, given, placed(given, line) + words, 1)
    try_document(program, library, ["locate"], "no JSON", b'{"ordtx":4,\n"objects"?',
                 b"fault 1 transaction 0 at line 2 column 10\nthis cannot be read as JSON\n", 1)
    try_document(program, library, ["locate"], case.name, case.with_suffix(".json").read_bytes(),
                 case.with_suffix(".check").read_bytes())


def try_carry(program, library, case):
    document = case.with_suffix(".json").read_bytes()
    for words in (["carry"], ["carry", "--into", str(case.with_suffix(".json"))]):
        try_document(program, library, words, case.name, document, program.run(words, document)[0])


def try_long_report(program, library):
    """The last requests, in which four workers render a long report."""
    deposits = documents.document([documents.ACCOUNT], ['[{"op":["a","deposit",1]}]'] * 9_000)
    for command in ("run", "serial"):
        words = [command, "--workers", "4"]
        (report, _, _), made = refuse(library, 0, words, program.path, deposits)
        for number in range(made - 40, made + 1):
            got, _ = refuse(library, number, words, program.path, deposits)
            program.compare("a long report, request %d refused" % number, words, got,
                            FAULT if got[1] == 1 else (report, 0, b""))


def try_reasons(program, library):
    """Handlers whose reasons ascend, and others, for which the document is begun again."""
    for order in ("abc", "acb"):
        try_document(program, library, ["serial"], "handlers by reason, as " + order,
                     documents.by_reason(order), documents.lines(documents.BY_REASON))


def try_all(program, library, loops, cases):
    try_loops(program, library, loops)
    try_reasons(program, library)
    try_long_report(program, library)
    try_places(program, library, cases[0])
    for case in cases:
        try_tokens(program, library, case)
        try_carry(program, library, case)
    for case in cases:
        for workers in ("1", "4"):
            words = ["run", "--workers", workers, "--cut", "1"]
            try_case(program, library, words, case)
