"""Where a document's first fault is, by `locate`: a JSON Pointer that is known from how the document was built, with the line
and the column at which the part begins, or a line and a column alone."""

import itertools
import json
import pathlib
import re

CASES = pathlib.Path(__file__).with_name("cases")

ACCOUNT = {"name": "a", "kind": "account", "start": 9}
COUNTER = {"name": "c", "kind": "counter", "start": 0}
QUEUE = {"name": "q", "kind": "queue", "start": []}
OBJECTS = [ACCOUNT, COUNTER, QUEUE]
GOOD = {"op": ["a", "deposit", 1]}
BALANCE = {"op": ["a", "balance"]}
# A later fault, which is never the first.
LATER = {"op": ["nobody", "balance"]}


# ---- a block with a fault, put into a step of another block; each gives that block, and the way to the one inside

def in_then(label, block):
    test = {"if": label, "atleast": 0, "then": block, "else": [LATER]}
    return [{**BALANCE, "as": label}, test, LATER], [1, "then"]


def in_else(label, block):
    test = {"if": label, "is": "committed", "then": [GOOD], "else": block}
    return [GOOD, {"sub": [GOOD], "as": label}, test], [2, "else"]


def in_sub(label, block):
    return [{"sub": block, "handlers": {"r": [LATER]}, "handler": [LATER], "as": label}], [0, "sub"]


def in_handler(label, block):
    return [GOOD, {"handler": block, "handlers": {"r": [GOOD]}, "sub": [GOOD]}, LATER], [1, "handler"]


def in_handlers(label, block):
    handlers = {"z": [LATER], "m": block, "b": [GOOD], "0": [{"abort": True}]}
    return [GOOD, GOOD, {"sub": [{"abort": "m"}], "handlers": handlers, "handler": [LATER]}], [2, "handlers", "m"]


def in_child(label, block):
    return [{"parallel": [{"sub": [GOOD], "as": label}, {"sub": []}, {"sub": block}, {"sub": [LATER]}]}], [0, "parallel", 2, "sub"]


def in_child_handler(label, block):
    return [GOOD, {"parallel": [{"sub": [], "handler": block}, LATER]}], [1, "parallel", 0, "handler"]


def in_child_handlers(label, block):
    return [{"parallel": [{"sub": []}, {"sub": [], "handlers": {"1": block}}]}], [0, "parallel", 1, "handlers", "1"]


WAYS = (in_then, in_else, in_sub, in_handler, in_handlers, in_child, in_child_handler, in_child_handlers)


# ---- blocks with a fault: its number, the block, and the way to the part

IN_BLOCKS = (
    (2, {}, []),
    (2, "block", []),
    (2, [GOOD, 7], [1]),
    (2, [{"op": ["a"]}], [0]),
    (2, [{"op": ["a", "balance"], "abort": True}], [0]),
    (2, [GOOD, GOOD, {"if": "x", "atleast": 1}], [2]),
    (2, [{"abort": False}], [0]),
    (2, [{"parallel": {}}], [0]),
    (2, [{"parallel": [{"sub": []}, GOOD]}], [0, "parallel", 1, "op"]),
    (2, [{"sub": [], "handlers": []}], [0]),
    (2, [{"sub": [], "handler": {}}], [0, "handler"]),
    (3, [{**BALANCE, "as": "no name"}], [0]),
    (3, [{"abort": "no/name"}], [0]),
    (3, [{"sub": [], "handlers": {"no~name": [LATER]}}], [0, "handlers", "no~0name"]),
    (3, [{"op": ["q", "enq", "x"]}, {"op": ["q", "enq", ""]}], [1]),
    (5, [LATER], [0]),
    (6, [GOOD, {"op": ["a", "add", 1]}], [1]),
    (7, [{"op": ["c", "sub", 0]}], [0]),
    (8, [{"sub": [{**BALANCE, "as": "own"}]}, {"if": "own", "atleast": 0, "then": []}], [1, "if"]),
    (9, [{**BALANCE, "as": "own"}, {**BALANCE, "as": "own"}], [1]),
    (9, [{"parallel": [{"sub": [], "as": "own"}, {"sub": [], "as": "own"}]}], [0, "parallel", 1]),
    (10, [{**BALANCE, "as": "own"}, {"if": "own", "is": "ok", "then": []}], [1]),
)

# Objects with a fault in the last of them: its number, them, and the way to the part from the last one.
IN_OBJECTS = (
    (2, [{"name": "b", "kind": "account"}], []),
    (2, [ACCOUNT, {"name": "b", "kind": "heap", "start": 0}], []),
    (2, [ACCOUNT, 7], []),
    (3, [{"name": "b b", "kind": "account", "start": -1}], []),
    (4, [ACCOUNT, QUEUE, {"name": "a", "kind": "set", "start": 0}], []),
    (13, [ACCOUNT, {"name": "b", "kind": "account", "start": -1}], ["start"]),
    (13, [{"name": "c", "kind": "counter", "start": 0.5}], ["start"]),
    (13, [{"name": "m", "kind": "max", "start": "0"}], ["start"]),
    (13, [{"name": "s", "kind": "set", "start": {}}], ["start"]),
    (13, [ACCOUNT, {"name": "s", "kind": "set", "start": ["x", "y", "z", "y", 7]}], ["start", 3]),
    (3, [{"name": "s", "kind": "set", "start": ["x", "no name"]}], ["start", 1]),
    (13, [ACCOUNT, {"name": "q", "kind": "queue", "start": ["x", "x", 7, ""]}], ["start", 2]),
    (3, [{"name": "q", "kind": "queue", "start": [""]}], ["start", 0]),
    (13, [{"name": "d", "kind": "directory", "start": [["k", "v"], ["l", "v"], ["k", "w"]]}], ["start", 2]),
    (13, [{"name": "d", "kind": "directory", "start": [["k", "v"], ["l"]]}], ["start", 1]),
    (3, [{"name": "d", "kind": "directory", "start": [["k", "no name"], 7]}], ["start", 0]),
)


# Objects, transactions, and the line that is printed, whole.
ONE = '{"name":"a","kind":"account","start":100}'
LINES = (
    (ONE + "," + ONE,
     '',
     'fault 4 transaction 0 at /objects/1'),
    ('{"name":"a","kind":"account","start":-1}',
     '',
     'fault 13 transaction 0 at /objects/0/start'),
    ('{"name":"s","kind":"set","start":7}',
     '',
     'fault 13 transaction 0 at /objects/0/start'),
    ('{"name":"s","kind":"set","start":["x","y","x"]}',
     '',
     'fault 13 transaction 0 at /objects/0/start/2'),
    ('{"name":"q","kind":"queue","start":["x",""]}',
     '',
     'fault 3 transaction 0 at /objects/0/start/1'),
    ('{"name":"d","kind":"directory","start":[["k"]]}',
     '',
     'fault 13 transaction 0 at /objects/0/start/0'),
    (ONE,
     '[],[{"op":["a","balance"]},{"op":["b","balance"]}]',
     'fault 5 transaction 2 at /transactions/1/1'),
    (ONE,
     '[],7',
     'fault 2 transaction 2 at /transactions/1'),
    (ONE,
     '[{"abort":true},{"abort":""}]',
     'fault 3 transaction 1 at /transactions/0/1'),
    (ONE,
     '[{"op":["a","balance"],"as":"l"},{"if":"l","atleast":1,"then":[{"abort":true}],"else":[{"abort":true},{"abort":false}]}]',
     'fault 2 transaction 1 at /transactions/0/1/else/1'),
    (ONE,
     '[{"op":["a","balance"],"as":"l"},{"if":"l","atleast":1,"then":[{"abort":false}],"else":[{"abort":false}]}]',
     'fault 2 transaction 1 at /transactions/0/1/then/0'),
    (ONE,
     '[{"if":"l","atleast":1,"then":7}]',
     'fault 8 transaction 1 at /transactions/0/0/if'),
    (ONE,
     '[{"sub":[{"abort":"late"}],"handlers":{"late":[{"parallel":[{"sub":[],"as":"x"},{"sub":[{"if":"x","is":"committed","then":[]}]}]}]},"handler":[{"abort":7}]}]',
     'fault 8 transaction 1 at /transactions/0/0/handlers/late/0/parallel/1/sub/0/if'),
    (ONE,
     '[{"sub":[],"handlers":{"a/~b":[]}}]',
     'fault 3 transaction 1 at /transactions/0/0/handlers/a~1~0b'),
    (ONE,
     '[{"sub":[],"handler":[{"abort":7}]}]',
     'fault 2 transaction 1 at /transactions/0/0/handler/0'),
    (ONE,
     '[{"parallel":[{"sub":[],"as":"x"},{"sub":[],"as":"x"}]}]',
     'fault 9 transaction 1 at /transactions/0/0/parallel/1'),
)

# Bytes that are no JSON, and where they go no further.
NO_JSON = (
    (b'{\n  "ordtx":1,\n  }', 3, 3),
    (b"[1,]", 1, 4),
    # Columns count bytes; what is within a text, a number or a word is found by its first byte.
    ('{"ä":1,,}'.encode(), 1, 9), (b'{"a":"la\\qte"}', 1, 6), (b'{"a":"b\tc"}', 1, 6), (b'{"a":"late}', 1, 6), (b'{"a":nul}', 1, 6),
    (b'{"a":01}', 1, 6), (b'{"a":1.}', 1, 6), (b'["a\xc3"]', 1, 4),
    # A later quote closes a text; the bytes end too soon.
    (b'{"a:1,"b":2}', 1, 8), (b'{"ordtx":1', 1, 10), (b'{"ordtx":1\n', 2, 0), (b"", 1, 0),
)


def batch(objects, transactions, version=4):
    return {"ordtx": version, "objects": objects, "transactions": transactions}


def bytes_of(value):
    return json.dumps(value).encode()


def pointer(way):
    """A JSON Pointer, of names that are escaped already."""
    return "".join("/%s" % part for part in way)


SPACES = re.compile(r"[ \t\r\n]*")


def after_spaces(text, place):
    return SPACES.match(text, place).end()


def parts_of(text, place):
    """The name or the index of each part of the value that begins at this place, and where the part begins."""
    scan, members, index = json.JSONDecoder().scan_once, text[place] == "{", 0
    place = after_spaces(text, place + 1)
    while text[place] not in "]}":
        name = str(index)
        if members:
            name, place = scan(text, place)
            place = after_spaces(text, after_spaces(text, place) + 1)
        yield name, place
        _, place = scan(text, place)
        place = after_spaces(text, place)
        if text[place] == ",":
            place = after_spaces(text, place + 1)
        index += 1


def name_of(token):
    """The name that a token of a pointer stands for: `~` and `/` are escaped, and then what JSON escapes in a text."""
    return json.loads('"%s"' % token).replace("~1", "/").replace("~0", "~")


def position(document, path):
    """The line and the column, in bytes, at which the part begins to which a JSON Pointer leads."""
    text = document.decode()
    begin = after_spaces(text, 0)
    for token in path.split("/")[1:]:
        # Of members of one name the last counts.
        begin = dict(parts_of(text, begin))[name_of(token)]
    before = text[:begin].encode()
    return " line %d column %d" % (1 + before.count(b"\n"), len(before) - before.rfind(b"\n"))


def placed(document, line):
    """A line of a fault, with the position of the part to which its pointer leads, if it has one."""
    path = line.partition(" at ")[2]
    return (line + (position(document, path) if path else "") + "\n").encode()


def located(document, number, transaction, way):
    place = " " + pointer(way) if way else ""
    return placed(document, "fault %d transaction %d at%s" % (number, transaction, place))


def expect_place(program, name, value, number, transaction, way):
    """In the usual order of the members, which is read without a tree, and in the opposite order."""
    for given in (value, dict(reversed(value.items())) if isinstance(value, dict) else value):
        program.expect_located("%s at %s" % (name, pointer(way)), bytes_of(given),
                               located(bytes_of(given), number, transaction, way))


def inside(ways, block, way):
    """The block within these ways, the first outermost, and the way to the part."""
    for depth, put in reversed(list(enumerate(ways))):
        block, steps = put("l%d" % depth, block)
        way = steps + way
    return block, way


def expect_inside(program, ways, number, block, way):
    """As the third of four transactions."""
    names = ", ".join(put.__name__ for put in ways[:8]) or "a transaction"
    name = "fault %d in %s" % (number, names)
    block, way = inside(ways, block, way)
    expect_place(program, name, batch(OBJECTS, [[GOOD], [], block, [LATER]]), number, 3,
                 ["transactions", 2] + way)


def try_blocks(program):
    """Each fault in a transaction, in each sort of block, and in two and in eight of them; each two sorts around a third."""
    for place, (number, block, way) in enumerate(IN_BLOCKS):
        others = WAYS[place % len(WAYS):] + WAYS[:place % len(WAYS)]
        for ways in ((), others[:2], others, others[::-1], *[(put,) for put in WAYS]):
            expect_inside(program, ways, number, block, way)
    for outer in WAYS:
        for place, middle in enumerate(WAYS):
            expect_inside(program, (outer, middle, WAYS[place - 3]), 5, [GOOD, LATER], [1])


def try_depth(program):
    """The block that is too deep is the place, not its transaction."""
    for put in WAYS:
        for last in (in_then, in_sub):
            expect_inside(program, (put,) * 23 + (last,), 11, [LATER], [])
        expect_inside(program, (put,) * 23, 5, [LATER], [0])


def try_objects(program):
    for number, objects, way in IN_OBJECTS:
        expect_place(program, "fault %d of an object" % number, batch(objects, [[LATER]]), number, 0,
                     ["objects", len(objects) - 1] + way)


def try_limits(program):
    """The part with which there are too many, or the document."""
    item = {"name": "q", "kind": "queue", "start": ["x"] * 60_000}
    other = {"name": "p", "kind": "queue", "start": ["x"] * 60_000}
    expect_place(program, "100,001 starting entries", batch([item, other], []), 12, 0,
                 ["objects", 1, "start", 40_000])
    body = [{"sub": [GOOD] * 60_000}]
    expect_place(program, "100,001 operations", batch(OBJECTS, [body, [GOOD], body], 3), 12, 3,
                 ["transactions", 2, 0, "sub", 39_999])
    children = [{"parallel": [{"sub": []}] * 60_000}]
    expect_place(program, "100,001 children and other steps", batch([], [children, children]), 12, 2,
                 ["transactions", 1, 0, "parallel", 39_998])
    expect_place(program, "a last transaction", batch(OBJECTS, [[GOOD]] * 9_999 + [[GOOD, {"sub": [LATER]}]]), 5, 10_000,
                 ["transactions", 9_999, 1, "sub", 0])


def try_wholes(program):
    """Faults of the whole document have no pointer, but for those of one of its members."""
    for number, value, way in (
            (2, [], []), (2, 7, []), (2, {}, []), (2, {"ordtx": 1, "objects": []}, []),
            (2, {**batch([], []), "more": 1}, ["more"]), (2, batch([], [], 6), ["ordtx"]), (2, batch({}, []), ["objects"]),
            (2, batch([], ""), ["transactions"]), (12, batch([ACCOUNT] * 1_001, []), ["objects"]),
            (12, batch([], [[]] * 10_001), ["transactions"])):
        expect_place(program, "fault %d of a whole document" % number, value, number, 0, way)


def try_orders(program):
    """The place of a fault in a document's members, in each order, and where one is said again."""
    good, wrong = [[GOOD], [GOOD]], [[GOOD], [GOOD, {"op": ["a", "add", 1]}]]
    twice = [ACCOUNT, COUNTER, ACCOUNT]
    for objects, transactions, number, transaction, way in (
            (OBJECTS, wrong, 6, 2, ["transactions", 1, 1]), (twice, wrong, 4, 0, ["objects", 2])):
        members = {"ordtx": 4, "objects": objects, "transactions": transactions}
        for order in itertools.permutations(members):
            expect_place(program, "a fault in another order", {name: members[name] for name in order}, number, transaction, way)
        told = ",".join("%s:%s" % (json.dumps(name), json.dumps(value)) for name, value in members.items())
        for before in ('"transactions":%s' % json.dumps(good), '"objects":[7]', '"objects":[],"transactions":[[7]]'):
            text = ("{%s,%s}" % (before, told)).encode()
            out, status, err = program.run(["locate"], text)
            start = "fault %d transaction %d at %s line " % (number, transaction, pointer(way))
            told_so = out.startswith(start.encode())
            program.compare("a fault after " + before, ["locate"], (told_so, status, err), (True, 1, b""))


def no_json(before):
    """The line of a text that goes no further after these bytes. A string that isn't closed counts by its first quote."""
    if before.count(b'"') % 2:
        before = before[:before.rindex(b'"') + 1]
    column = len(before) - (before.rfind(b"\n") + 1)
    return b"fault 1 transaction 0 at line %d column %d\n" % (1 + before.count(b"\n"), column)


def try_no_json(program):
    """A text that is cut off, and one with a byte that can't be there, which is counted."""
    whole = json.dumps(batch(OBJECTS, [[GOOD], [{"sub": [], "as": "l"}]]), indent=2).encode()
    for length in range(len(whole)):
        program.expect_located("the first %d bytes" % length, whole[:length], no_json(whole[:length]))
    for place in (whole.index(word) for word in (
            b"{", b'"ordtx"', b"4", b'"objects"', b'"name"', b'"kind"', b"9", b'"transactions"', b'"op"', b'"sub"')):
        given = whole[:place] + b"?" + whole[place:]
        program.expect_located("a question mark at %d" % place, given, no_json(given[:place + 1]))
    program.expect_located("a second text", whole + b"\n7", no_json(whole + b"\n7"))


def part_at(value, path):
    """The part to which a JSON Pointer (RFC 6901) leads."""
    for token in path.split("/")[1:]:
        value = value[int(token) if isinstance(value, list) else name_of(token)]
    return value


def leads_there(document, place):
    """Whether a pointer leads to a part, which begins at the line and the column that follow it."""
    path = place.partition(" line ")[0]
    try:
        part_at(json.loads(document), path)
        return place == path + (position(document, path) if path else "")
    except (KeyError, IndexError, ValueError, TypeError):
        return False


def try_fault_of_a_case(program, name, document, fault):
    out, status, err = program.run(["locate"], document)
    line, at, place = out.decode().partition("\n")[0].partition(" at")
    program.compare(name, ["locate"], (line.encode() + b"\n", status, err), (fault, 1, b""))
    program.compare(name + " has a place", ["locate"], (at, out.count(b"\n")), (" at", 2))
    if fault.startswith(b"fault 1 "):
        program.compare(name + " has a line", ["locate"], (place.startswith(" line "),), (True,))
    else:
        program.compare(name + " leads there", ["locate"], (leads_there(document, place.strip()),), (True,))


def try_cases(program):
    for file in sorted(CASES.glob("*.json")):
        document, fault = file.read_bytes(), file.with_suffix(".fault")
        if fault.exists():
            try_fault_of_a_case(program, file.stem, document, fault.read_bytes())
        else:
            program.expect(file.stem, ["locate"], document, file.with_suffix(".check").read_bytes())


# Each with the pointer and the position of its fault, which is counted by hand: bytes in columns, and the last of two members.
POSITIONS = (
    (b'{"ordtx":4,"objects":[],\n  "transactions": [ [ ], [\t{"abort":true} , {"ab":1}]]}', "/transactions/1/1 line 2 column 45"),
    (b'{"ordtx":4,\r\n"objects":[],\r\n"transactions":[[\r\n7]]}', "/transactions/0/0 line 4 column 1"),
    ('{"ordtx":4,"objects":[{"name":"ä","kind":"account","start":0}],"transactions":[]}'.encode(), "/objects/0 line 1 column 23"),
    ('{"ordtx":4,"objects":[{"start":["ä",1],"name":"q","kind":"queue"}],"transactions":[]}'.encode(),
     "/objects/0/start/0 line 1 column 33"),
    (b'{"ordtx":4,"objects":[],"transactions":[],"transactions":[[],[],7]}', "/transactions/2 line 1 column 65"),
)


def try_positions(program):
    for given, place in POSITIONS:
        out, status, err = program.run(["locate"], given)
        shown = out.decode().partition("\n")[0].partition(" at ")[2]
        program.compare("at " + place, ["locate"], (shown, status, err), (place, 1, b""))


def try_lines(program):
    for objects, transactions, line in LINES:
        given = '{"ordtx":4,"objects":[%s],"transactions":[%s]}' % (objects, transactions)
        program.expect_located(line, given.encode(), placed(given.encode(), line))
    for given, line, column in NO_JSON:
        program.expect_located("no JSON", given, b"fault 1 transaction 0 at line %d column %d\n" % (line, column))


def try_all(program):
    try_positions(program)
    try_lines(program)
    try_blocks(program)
    try_depth(program)
    try_objects(program)
    try_limits(program)
    try_wholes(program)
    try_orders(program)
    try_no_json(program)
    try_cases(program)
