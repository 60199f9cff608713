"""`carry`: the document of the objects at the end, and the next day's batch that begins with it."""

import json
import pathlib
import tempfile

ROOT = pathlib.Path(__file__).resolve().parent.parent
MOST = 10 ** 15
END = b"]}\n"


def ends(program, name, document):
    """The objects at the end, by the report: each with its kind and its value. Members and keys may come in any order."""
    out, status, err = program.run(["serial"], document)
    program.compare(name, ["serial"], (status, err), (0, b""))
    found = []
    for line in out.decode().splitlines():
        if line.startswith("= "):
            _, object_name, kind, value = line.split(" ", 3)
            found.append((object_name, kind, sorted(value[1:-1].split()) if value[0] == "{" else value))
    return found


def carried(program, name, document):
    out, status, err = program.run(["carry"], document)
    program.compare(name, ["carry"], (status, err, out[-len(END):]), (0, b"", END))
    return out


def filled(carried_document, transactions):
    """The document with these transactions before its last line."""
    return carried_document[:-len(END)] + ",\n".join(json.dumps(block) for block in transactions).encode() + b"\n" + END


def try_document(program, name, document):
    """What is carried over is read, has no transaction, and ends as it begins."""
    given = json.loads(document)
    out = carried(program, name, document)
    parts = json.loads(out)
    program.compare(name, ["carry"], (parts["ordtx"], parts["transactions"], [(o["name"], o["kind"]) for o in parts["objects"]]),
                    (max(4, given["ordtx"]), [], [(o["name"], o["kind"]) for o in given["objects"]]))
    program.expect(name + ", carried", ["check"], out, b"ok objects %d transactions 0 operations 0\n" % len(given["objects"]))
    program.compare(name + ", carried", ["serial"], (ends(program, name, out),), (ends(program, name, document),))


def try_days(program, name, document):
    """Two days, of which the second begins with what the first carries over, end as the whole."""
    given = json.loads(document)
    whole = ends(program, name, document)
    for count in range(len(given["transactions"]) + 1):
        first = dict(given, transactions=given["transactions"][:count])
        out = carried(program, name, json.dumps(first).encode())
        second = filled(out, given["transactions"][count:])
        program.compare("%s, cut after %d" % (name, count), ["carry"], (ends(program, name, second),), (whole,))


def document_of(objects, transactions=(), version=4):
    return json.dumps({"ordtx": version, "objects": [{"name": name, "kind": kind, "start": start} for name, kind, start in objects],
                       "transactions": list(transactions)}).encode()


def text_of(objects, version=4):
    """The text that carries these objects over."""
    lines = ['{"name": "%s", "kind": "%s", "start": %s}' % (name, kind, json.dumps(start)) for name, kind, start in objects]
    return ('{"ordtx": %d,\n"objects": [\n%s\n],\n"transactions": [\n]}\n' % (version, ",\n".join(lines))).encode()


def try_kinds(program):
    """Each kind with nothing in it, with one thing and with many; a queue keeps its order."""
    many = ["i%d" % number for number in range(5000)]
    for kind, starts in (
            ("account", (0, 1, MOST)), ("counter", (0, -1, -MOST, MOST)), ("max", (0, 1, MOST)),
            ("set", ([], ["a"], many)), ("queue", ([], ["a"], many[::-1] + many)),
            ("directory", ([], [["a", "a"]], [[item, many[0]] for item in many]))):
        for start in starts:
            objects = [("first", kind, start)]
            program.expect("a carried " + kind, ["carry"], document_of(objects), text_of(objects))
    every = [("a", "account", 5), ("s", "set", ["x", "y"]), ("q", "queue", ["y", "x"]), ("d", "directory", [["x", "y"]]), ("m", "max", 9)]
    program.expect("each kind", ["carry"], document_of(every), text_of(every))
    program.expect("no object", ["carry"], document_of([]), text_of([]))
    changes = [[{"op": ["a", "withdraw", 2]}, {"op": ["s", "remove", "x"]}, {"op": ["q", "deq"]}, {"op": ["q", "enq", "z"]},
                {"op": ["d", "put", "z", "y"]}, {"op": ["m", "raise", 10]}], [{"op": ["a", "deposit", 1]}, {"abort": True}]]
    changed = [("a", "account", 3), ("s", "set", ["y"]), ("q", "queue", ["x", "z"]), ("d", "directory", [["x", "y"], ["z", "y"]]),
               ("m", "max", 10)]
    program.expect("each kind, changed", ["carry"], document_of(every, changes), text_of(changed))


def try_into(program, name, first, second, out, status=0, err=b""):
    """The second document with the objects of the first, which is read from a file and from standard input."""
    with tempfile.TemporaryDirectory() as folder:
        paths = [pathlib.Path(folder, file) for file in ("day1.json", "day2.json")]
        for path, document in zip(paths, (first, second)):
            path.write_bytes(document)
        one, two = map(str, paths)
        for words, given, names in ((["carry", one, "--into", two], b"", ("'%s'" % one, "'%s'" % two)),
                                    (["carry", "--into", two], first, ("standard input", "'%s'" % two)),
                                    (["carry", one, "--into", "-"], second, ("'%s'" % one, "standard input"))):
            told = err.replace(b"DAY1", names[0].encode()).replace(b"DAY2", names[1].encode())
            program.expect(name, words, given, out, status, told)


def joined_text(objects, transactions, version=4):
    """The text of these objects with these transactions, each as JSON without a space."""
    lines = ['{"name": "%s", "kind": "%s", "start": %s}' % (name, kind, json.dumps(start)) for name, kind, start in objects]
    return ('{"ordtx": %d,\n"objects": [\n%s\n],\n"transactions": [\n%s\n]}\n' % (
        version, ",\n".join(lines), ",\n".join(json.dumps(block, separators=(",", ":")) for block in transactions))).encode()


KINDS = (("account", 5, 7), ("counter", -3, 4), ("max", 9, 2), ("set", ["x", "y"], ["z"]), ("queue", ["y", "x", "y"], []),
         ("directory", [["k", "x"]], [["x", "k"], ["k", "y"]]))


def try_joined_kinds(program):
    """Each kind in both documents, in the first alone, and in the next alone."""
    for kind, old, new in KINDS:
        ended, started = ("o", kind, old), ("o", kind, new)
        try_into(program, kind + " in both", document_of([ended]), document_of([started]), joined_text([ended], []))
        try_into(program, kind + " in the first", document_of([ended]), document_of([]), joined_text([ended], []))
        try_into(program, kind + " in the next", document_of([]), document_of([started]), joined_text([started], []))
        for other, start, _ in KINDS:
            if other != kind:
                try_into(program, "a %s and a %s" % (kind, other), document_of([("a", kind, old), ("o", kind, old)]),
                         document_of([("n", other, start), ("o", other, start)]), b"", 1,
                         b"ordtx: object 'o' has two kinds in the two documents\nfault 4 transaction 0\n")
    try_into(program, "no object", document_of([]), document_of([]), joined_text([], []))
    blocks = [[{"op": ["n", "deposit", 1], "as": "d"}, {"if": "d", "is": "ok", "then": []}], [{"abort": "late"}], []]
    first = document_of([("b", "account", 1), ("a", "account", 2), ("c", "set", ["q", "p"])], [[{"op": ["a", "deposit", 3]}]])
    try_into(program, "an order of objects", first, document_of([("n", "account", 8), ("a", "account", 9)], blocks),
             joined_text([("n", "account", 8), ("a", "account", 5), ("b", "account", 1), ("c", "set", ["q", "p"])], blocks))


def try_spelled(program):
    """Transactions stand as they are: numbers, names and members; of a member that is there twice it is the last."""
    head, objects = b'{"transactions": [[]], "ordtx": 1, ', b'"objects": [{"start": 1, "name": "a", "kind": "account"}], '
    tail = b'"trans\\u0061ctions": [ [ {"as": "x", "op" : ["a", "depo\\u0073it", 10 ]} ] ,\n[] ] }'
    try_into(program, "transactions as they are written", document_of([]), head + objects + tail,
             joined_text([("a", "account", 1)], [[{"as": "x", "op": ["a", "deposit", 10]}], []]))


def try_joined_faults(program):
    """The faults in their order: the first document's, the next one's, two kinds, too many objects, and what is no start."""
    bad, worse = b"{}", b"["
    plain, clash = document_of([("a", "account", MOST)]), document_of([("a", "counter", 1)])
    more = document_of([("a", "account", MOST)], [[{"op": ["a", "deposit", 1]}]])
    full = [("q", "queue", ["x"] * 99_999)]
    many = [("o%d" % number, "account", 0) for number in range(1000)]
    for name, first, second, err in (
            ("both documents are wrong", bad, worse, b"ordtx: this fault is of DAY1\nfault 2 transaction 0\n"),
            ("the next document is wrong", more, worse, b"ordtx: this fault is of DAY2\nfault 1 transaction 0\n"),
            ("two kinds, and a large number", more, clash,
             b"ordtx: object 'a' has two kinds in the two documents\nfault 4 transaction 0\n"),
            ("a large number", more, plain, b"ordtx: object 'a' ends with a number that is too large for a start\nfault 13 transaction 0\n"),
            ("too many objects", document_of([("b", "account", 0)]), document_of(many),
             b"ordtx: object 'b' is one too many, or its entries are\nfault 12 transaction 0\n"),
            ("too many entries", document_of(full), document_of([("s", "set", ["x", "y"])]),
             b"ordtx: object 'q' is one too many, or its entries are\nfault 12 transaction 0\n")):
        try_into(program, name, first, second, b"", 1, err)
    try_into(program, "as many objects as there may be", document_of(many[1:]), document_of(many), joined_text(many, []))
    try_into(program, "as many entries as there may be", document_of(full), document_of([("s", "set", ["x"])]),
             joined_text([("s", "set", ["x"])] + full, []))


def try_versions(program):
    """What is carried has the version of its own document, or 4 before that; a next document has the later one of both."""
    account, more = [("a", "account", 1)], [("b", "account", 2)]
    for version in range(1, 6):
        carried_as = max(4, version)
        program.expect("carried from version %d" % version, ["carry"], document_of(account, (), version), text_of(account, carried_as))
        for later in range(1, 6):
            try_into(program, "version %d into %d" % (version, later), document_of(account, (), version), document_of(more, (), later),
                     joined_text(more + account, [], max(4, version, later)))
    many, entries = [("o%d" % number, "account", 0) for number in range(1_001)], [("q", "queue", ["x"] * 100_001)]
    for objects in many, entries:
        program.expect("carried in version 5 alone", ["carry"], document_of(objects, (), 5), text_of(objects, 5))
    for first, second in ((4, 5), (5, 4)):
        halves = document_of(many[:600], (), first), document_of(many[600:], (), second)
        try_into(program, "objects for version 5", *halves, joined_text(many[600:] + many[:600], [], 5))
    try_into(program, "objects for version 5 in version 4", document_of(many[:600]), document_of(many[600:]), b"", 1,
             b"ordtx: object 'o599' is one too many, or its entries are\nfault 12 transaction 0\n")


def try_long(program):
    """With 100,000 items before them, transactions of nearly 64 MiB are too long for version 4, and not for version 5."""
    account, step = "a" * 32, '{"op":["%s","deposit",1000000000000]}' % ("a" * 32)
    queue = [("q", "queue", ["i%030d" % number for number in range(100_000)])]
    count = 67_000_000 // (len(step) + 1)
    for version in (4, 5):
        second = '{"ordtx":%d,"objects":[{"name":"%s","kind":"account","start":0}],"transactions":[[%s]]}' % (
            version, account, ",".join([step] * count))
        with tempfile.TemporaryDirectory() as folder:
            path = pathlib.Path(folder, "next.json")
            path.write_text(second)
            out, status, err = program.run(["carry", "--into", str(path)], document_of(queue))
        if version == 4:
            wanted = ("ordtx: this fault is of '%s'\nfault 12 transaction 0\n" % path).encode()
            program.compare("a long next document of version 4", ["carry", "--into"], (out, status, err), (b"", 1, wanted))
        else:
            program.compare("a long next document of version 5", ["carry", "--into"], (len(out) > 67_108_864, status, err), (True, 0, b""))
            checked = program.run(["check"], out)
            program.compare("a long next document of version 5, joined", ["check"], checked,
                            (b"ok objects 2 transactions 1 operations %d\n" % count, 0, b""))


def try_second_days(program, name, document):
    """Two days, of which the second has its own objects, end as the whole."""
    given = json.loads(document)
    whole = ends(program, name, document)
    middle = len(given["transactions"]) // 2
    first = json.dumps(dict(given, transactions=given["transactions"][:middle])).encode()
    second = json.dumps(dict(given, transactions=given["transactions"][middle:])).encode()
    with tempfile.TemporaryDirectory() as folder:
        path = pathlib.Path(folder, "day2.json")
        path.write_bytes(second)
        out, status, err = program.run(["carry", "--into", str(path)], first)
    program.compare(name, ["carry", "--into"], (status, err), (0, b""))
    parts = json.loads(out)
    program.compare(name, ["carry", "--into"], (parts["transactions"],), (given["transactions"][middle:],))
    program.compare(name, ["carry", "--into"], (ends(program, name, out),), (whole,))


def try_unfit(program):
    """Objects that end as none may start: the first of them is the fault."""
    large, small = ("a", "account", MOST), ("c", "counter", -MOST)
    full = ("q", "queue", ["x"] * 100_000)
    more, less, enq = {"op": ["a", "deposit", 1]}, {"op": ["c", "sub", 1]}, {"op": ["q", "enq", "x"]}
    for name, objects, steps, fault, unfit in (
            ("an account that is too large", [large], [more], 13, b"a"),
            ("a counter that is too small", [small], [less], 13, b"c"),
            ("a counter that is too large", [("c", "counter", MOST)], [{"op": ["c", "add", 1]}], 13, b"c"),
            ("too many entries", [full], [enq], 12, b"q"),
            ("too many entries of all", [full, ("s", "set", [])], [{"op": ["s", "insert", "x"]}], 12, b"s"),
            ("an account, and then too many entries", [large, full], [more, enq], 13, b"a"),
            ("too many entries, and then an account", [full, large], [more, enq], 12, b"q"),
            ("an account that is large for a while", [large], [more, {"op": ["a", "withdraw", 1]}], None, None),
            ("an entry more for a while", [full], [enq, {"op": ["q", "deq"]}], None, None)):
        document = document_of(objects, [steps])
        if fault is None:
            program.expect(name, ["carry"], document, text_of(objects))
        else:
            why = b"ends with a number that is too large for a start" if fault == 13 else b"is one too many, or its entries are"
            program.expect(name, ["carry"], document, b"", 1,
                           b"ordtx: object '%s' %s\nfault %d transaction 0\n" % (unfit, why, fault))


def try_all(program):
    for document in sorted((ROOT / "tests" / "cases").glob("*.json")):
        fault = document.with_suffix(".fault")
        if fault.exists():
            program.expect(document.stem, ["carry"], document.read_bytes(), b"", 1, fault.read_bytes())
        else:
            try_document(program, document.stem, document.read_bytes())
    for document in sorted((ROOT / "examples").glob("*.json")):
        try_document(program, document.stem, document.read_bytes())
        try_days(program, document.stem, document.read_bytes())
        try_second_days(program, document.stem, document.read_bytes())
    try_kinds(program)
    try_unfit(program)
    try_joined_kinds(program)
    try_spelled(program)
    try_joined_faults(program)
    try_versions(program)
    try_long(program)
