"""What `locate` says in words: for each rule of the language, documents that don't keep it, with the number and the place of
their fault, the words that are printed, and the same document mended as they say."""

import pathlib
import re

from places import ACCOUNT, BALANCE, COUNTER, GOOD, QUEUE, batch, bytes_of, position

ROOT = pathlib.Path(__file__).parent.parent
SET = {"name": "s", "kind": "set", "start": []}
DIRECTORY = {"name": "d", "kind": "directory", "start": []}
OBJECTS = [ACCOUNT, COUNTER, QUEUE, SET, DIRECTORY]
NAME = ' is no name: a name has 1 to 32 ASCII letters, digits, "_" and "-"'
LONG_NAME = ' is no name: a name has 1 to 128 ASCII letters, digits and signs of "_-.:/@+#%"'
TEXT = ", and has to be a text"
ONE_OF = ' one of "op", "if", "sub", "abort" and "parallel"'
SOURCE = 'an argument that a label gives is written {"from": "LABEL"}'
FIRST = "/transactions/0/0"
LATER = "/transactions/0/1"


def objects(*given, version=4):
    return batch(list(given), [], version)


def steps(*given, version=4):
    return batch(OBJECTS, [list(given)], version)


def op(*words, **members):
    return {"op": list(words), **members}


def nested(levels):
    block = []
    for _ in range(levels):
        block = [{"sub": block}]
    return block


SEEN = {**BALANCE, "as": "n"}
DONE = {"sub": [], "as": "s"}
ADDED = op("s", "insert", "x", **{"as": "n"})


def given(argument):
    """A deposit of this argument, after a step that sets the label n."""
    return steps(SEEN, op("a", "deposit", argument), version=5)


def tested(*first, **test):
    return steps(*first, {"if": "n", **test, "then": []})


# Rule, fault, document, place, words, and the document mended.
MISTAKES = (
    ("Shape.Members", 2, [], "", "a list is no object of JSON", batch([], [])),
    ("Shape.Members", 2, {"ordtx": 4, "objcts": [], "objects": [], "transactions": []}, "/objcts",
     '"objcts" is no member of a document; did you mean "objects"?', batch([], [])),
    ("Shape.Members", 2, {**batch([], []), "a/b~c\n\"": 1}, "/a~1b~0c\\n\\\"", '"a/b~c\\n\\"" is no member of a document', batch([], [])),
    ("Shape.Members", 2, objects({**ACCOUNT, "starts": 1}), "/objects/0/starts",
     '"starts" is no member of an object; did you mean "start"?', objects(ACCOUNT)),
    ("Shape.Members", 2, objects(7), "/objects/0", "7 is no object of JSON", objects(ACCOUNT)),
    ("Shape.Members", 2, steps({**GOOD, "label": "x"}), FIRST + "/label", '"label" is no member of an operation',
     steps({**GOOD, "as": "x"})),
    ("Shape.Members", 2, steps(SEEN, {"if": "n", "atleast": 1, "then": [], "esle": []}), LATER + "/esle",
     '"esle" is no member of an if; did you mean "else"?', steps(SEEN, {"if": "n", "atleast": 1, "then": [], "else": []})),
    ("Shape.Members", 2, steps({"sub": [], "handlr": []}), FIRST + "/handlr",
     '"handlr" is no member of a subaction; did you mean "handler"?', steps({"sub": [], "handler": []})),
    ("Shape.Members", 2, steps({"abort": True, "as": "x"}), FIRST + "/as", '"as" is no member of an abort', steps({"abort": True})),
    ("Shape.Members", 2, steps({"parallel": [], "as": "x"}), FIRST + "/as", '"as" is no member of a parallel step',
     steps({"parallel": []})),
    ("Shape.Members", 2, steps({"parallel": [True]}), FIRST + "/parallel/0", "true is no object of JSON",
     steps({"parallel": [{"sub": []}]})),
    ("Shape.Version", 2, {"objects": [], "transactions": []}, "", '"ordtx" is missing: this program reads the versions 1 to 5',
     batch([], [])),
    ("Shape.Version", 2, batch([], [], 6), "/ordtx", "the version is 6; this program reads 1 to 5", batch([], [])),
    ("Shape.Version", 2, batch([], [], "4"), "/ordtx", "the version is a text; write it without quotes", batch([], [])),
    ("Shape.Version", 2, batch([], [], 4.0), "/ordtx",
     "the version is a number that is not written as a whole number of 64 bits; this program reads 1 to 5", batch([], [])),
    ("Shape.Objects", 2, {"ordtx": 4, "transactions": []}, "", '"objects" is missing', batch([], [])),
    ("Shape.Objects", 2, batch({}, []), "/objects", '"objects" is an object, and has to be a list', batch([], [])),
    ("Shape.Transactions", 2, {"ordtx": 4, "objects": []}, "", '"transactions" is missing', batch([], [])),
    ("Shape.Transactions", 2, batch([], "x"), "/transactions", '"transactions" is "x", and has to be a list', batch([], [])),
    ("Few.Objects", 12, objects(*[{**ACCOUNT, "name": "a%d" % i} for i in range(1_001)]), "/objects", "more than 1,000 objects",
     objects(*[{**ACCOUNT, "name": "a%d" % i} for i in range(1_000)])),
    ("Few.Transactions", 12, batch([], [[]] * 10_001), "/transactions", "more than 10,000 transactions", batch([], [[]] * 10_000)),
    ("Few.Objects", 12, objects(*[{**ACCOUNT, "name": "a%d" % i} for i in range(1_001)]), "/objects", "more than 1,000 objects",
     objects(*[{**ACCOUNT, "name": "a%d" % i} for i in range(1_001)], version=5)),
    ("Few.Transactions", 12, batch([], [[]] * 1_000_001, 5), "/transactions", "more than 1,000,000 transactions",
     batch([], [[]] * 1_000_000, 5)),
    ("Shape.ObjectName", 2, objects({"kind": "set", "start": []}), "/objects/0", '"name" is missing', objects(SET)),
    ("Shape.ObjectName", 2, objects({**SET, "name": 7}), "/objects/0", '"name" is 7' + TEXT, objects({**SET, "name": "7"})),
    ("Shape.ObjectKind", 2, objects({"name": "s", "start": []}), "/objects/0", '"kind" is missing', objects(SET)),
    ("Shape.ObjectKind", 2, objects({**SET, "kind": None}), "/objects/0", '"kind" is null' + TEXT, objects(SET)),
    ("Shape.ObjectKind", 2, objects({**ACCOUNT, "kind": "acount"}), "/objects/0",
     '"acount" is no kind of object; did you mean "account"?', objects(ACCOUNT)),
    ("Shape.ObjectKind", 2, objects({"name": "m", "kind": "max", "start": 0}, version=1), "/objects/0",
     'the kind "max" is of a later version than 1', objects({"name": "m", "kind": "max", "start": 0}, version=2)),
    ("Shape.ObjectStart", 2, objects({"name": "s", "kind": "set"}), "/objects/0", '"start" is missing', objects(SET)),
    ("Name.Object", 3, objects({**SET, "name": "my set"}), "/objects/0", '"my set"' + NAME, objects({**SET, "name": "my-set"})),
    ("Name.Object", 3, objects({**SET, "name": "a.b"}), "/objects/0", '"a.b"' + NAME, objects({**SET, "name": "a.b"}, version=5)),
    ("Name.Object", 3, objects({**SET, "name": "a b"}, version=5), "/objects/0", '"a b"' + LONG_NAME,
     objects({**SET, "name": "a+b"}, version=5)),
    ("Name.Handlers", 3, steps({"sub": [], "handlers": {"a/b": [], "a~b": []}}, version=5), FIRST + "/handlers/a~0b",
     '"a~b"' + LONG_NAME, steps({"sub": [], "handlers": {"a/b": [], "a.b": []}}, version=5)),
    ("Shape.Sort", 2, steps({"sub": [], "handlers": {"a/b": [{}]}}, version=5), FIRST + "/handlers/a~1b/0",
     "a step has" + ONE_OF, steps({"sub": [], "handlers": {"a/b": [GOOD]}}, version=5)),
    ("NewObject", 4, objects(SET, SET), "/objects/1", 'an earlier object has the name "s"', objects(SET, {**SET, "name": "t"})),
    ("Start.Of", 13, objects({**ACCOUNT, "start": -1}), "/objects/0/start",
     "an account can't start with -1: it starts with a whole number from 0 to 1,000,000,000,000,000", objects(ACCOUNT)),
    ("Start.Of", 13, objects({**COUNTER, "start": "7"}), "/objects/0/start",
     'a counter can\'t start with "7": it starts with a whole number from -1,000,000,000,000,000 to 1,000,000,000,000,000',
     objects({**COUNTER, "start": 7})),
    ("Start.Of", 13, objects({"name": "m", "kind": "max", "start": 0.5}), "/objects/0/start",
     "a maximum register can't start with a number that is not written as a whole number of 64 bits: it starts with a whole number from 0 to "
     "1,000,000,000,000,000", objects({"name": "m", "kind": "max", "start": 5})),
    ("Start.Of", 13, objects({**SET, "start": {}}), "/objects/0/start",
     "a set can't start with an object: it starts with a list of items", objects(SET)),
    ("Start.Of", 13, objects({**QUEUE, "start": "x"}), "/objects/0/start",
     'a queue can\'t start with "x": it starts with a list of items', objects({**QUEUE, "start": ["x"]})),
    ("Start.Of", 13, objects({**DIRECTORY, "start": None}), "/objects/0/start",
     "a directory can't start with null: it starts with a list of pairs", objects(DIRECTORY)),
    ("Start.Entry", 13, objects({**QUEUE, "start": ["x", 7]}), "/objects/0/start/1", "7 is no text: items are written in quotes",
     objects({**QUEUE, "start": ["x", "7"]})),
    ("Name.Entry", 3, objects({**SET, "start": ["x y"]}), "/objects/0/start/0", '"x y"' + NAME, objects({**SET, "start": ["x-y"]})),
    ("Start.NewEntry", 13, objects({**SET, "start": ["x", "x"]}), "/objects/0/start/1", '"x" is there twice',
     objects({**SET, "start": ["x"]})),
    ("Start.Pair", 13, objects({**DIRECTORY, "start": ["kx"]}), "/objects/0/start/0", '"kx" is no pair of a key and an item',
     objects({**DIRECTORY, "start": [["k", "x"]]})),
    ("Start.PairKey", 13, objects({**DIRECTORY, "start": [[1, "x"]]}), "/objects/0/start/0", "the key is 1" + TEXT,
     objects({**DIRECTORY, "start": [["1", "x"]]})),
    ("Start.PairItem", 13, objects({**DIRECTORY, "start": [["k", []]]}), "/objects/0/start/0", "the item is a list" + TEXT,
     objects({**DIRECTORY, "start": [["k", "x"]]})),
    ("Name.PairKey", 3, objects({**DIRECTORY, "start": [["", "x"]]}), "/objects/0/start/0", '""' + NAME,
     objects({**DIRECTORY, "start": [["k", "x"]]})),
    ("Name.PairItem", 3, objects({**DIRECTORY, "start": [["k", "é"]]}), "/objects/0/start/0", '"é"' + NAME,
     objects({**DIRECTORY, "start": [["k", "e"]]})),
    ("Start.NewKey", 13, objects({**DIRECTORY, "start": [["k", "x"], ["k", "y"]]}), "/objects/0/start/1", 'the key "k" is there twice',
     objects({**DIRECTORY, "start": [["k", "x"], ["l", "y"]]})),
    ("Few.Entries", 12, objects({**QUEUE, "start": ["x"] * 100_001}), "/objects/0/start/100000",
     "more than 100,000 entries that objects start with", objects({**QUEUE, "start": ["x"] * 100_000})),
    ("Shape.Block", 2, batch([], [{}]), "/transactions/0", "an object is no list of steps", batch([], [[]])),
    ("Shape.Block", 2, steps({"sub": "x"}), FIRST + "/sub", '"x" is no list of steps', steps({"sub": []})),
    ("Depth", 11, steps({"sub": nested(23)}), FIRST + "/sub/0" * 23 + "/sub", "blocks are more than 24 deep in one another",
     steps({"sub": nested(22)})),
    ("Shape.Sort", 2, steps(7), FIRST, "7 is no step: a step is an object of JSON", steps()),
    ("Shape.Sort", 2, steps({"opp": ["a", "balance"]}), FIRST, 'a step has' + ONE_OF + '; did you mean "op"?', steps(BALANCE)),
    ("Shape.Sort", 2, steps({"op": ["a", "balance"], "sub": []}), FIRST, 'a step has only' + ONE_OF, steps(BALANCE)),
    ("Shape.Label", 2, steps({**GOOD, "as": 1}), FIRST, '"as" is 1' + TEXT, steps({**GOOD, "as": "1"})),
    ("Shape.Label", 2, steps({"sub": [], "as": None}), FIRST, '"as" is null' + TEXT, steps({"sub": []})),
    ("Name.Label", 3, steps({**GOOD, "as": "a b"}), FIRST, '"a b"' + NAME, steps({**GOOD, "as": "a_b"})),
    ("NewLabel", 9, steps({"parallel": [DONE, DONE]}), FIRST + "/parallel/1", 'the label "s" is taken already',
     steps({"parallel": [DONE, {**DONE, "as": "t"}]})),
    ("NewLabel", 9, steps(DONE, DONE), LATER, 'the label "s" is taken already', steps(DONE, {**DONE, "as": "t"})),
    ("Shape.OperationObject", 2, steps({"op": "a"}), FIRST, '"op" is "a", and has to be a list', steps(BALANCE)),
    ("Shape.OperationObject", 2, steps(op()), FIRST, '"op" has no object', steps(BALANCE)),
    ("Shape.OperationObject", 2, steps(op(1, "balance")), FIRST, "the object is 1" + TEXT, steps(BALANCE)),
    ("Shape.OperationWord", 2, steps(op("a")), FIRST, '"op" has no operation', steps(BALANCE)),
    ("Shape.OperationWord", 2, steps(op("a", False)), FIRST, "the operation is false" + TEXT, steps(BALANCE)),
    ("Few.Operations", 12, batch(OBJECTS, [[BALANCE] * 100_001], 3), "/transactions/0/100000", "more than 100,000 operations",
     batch(OBJECTS, [[BALANCE] * 100_001], 4)),
    ("KnownObject", 5, steps(op("b", "balance")), FIRST, 'no object has the name "b"', steps(BALANCE)),
    ("KnownOperation", 6, steps(op("a", "widthdraw", 1)), FIRST,
     '"widthdraw" is no operation of an account; did you mean "withdraw"?', steps(op("a", "withdraw", 1))),
    ("KnownOperation", 6, steps(op("q", "enqueue", "x")), FIRST, '"enqueue" is no operation of a queue', steps(op("q", "enq", "x"))),
    ("KnownOperation", 6, steps(op("c", "balance")), FIRST, '"balance" is no operation of a counter', steps(op("c", "read"))),
    ("KnownOperation", 6, steps(op("s", "insrt", "x")), FIRST, '"insrt" is no operation of a set; did you mean "insert"?',
     steps(op("s", "insert", "x"))),
    ("KnownOperation", 6, steps(op("d", "puts", "k", "x")), FIRST,
     '"puts" is no operation of a directory; did you mean "put"?', steps(op("d", "put", "k", "x"))),
    ("KnownOperation", 6, steps(op("q", "length"), version=1), FIRST, 'the operation "length" is of a later version than 1',
     steps(op("q", "length"), version=2)),
    ("Argument.Count", 7, steps(op("a", "withdraw")), FIRST, '"withdraw" takes one amount', steps(op("a", "withdraw", 1))),
    ("Argument.Count", 7, steps(op("s", "insert", "x", "y")), FIRST, '"insert" takes one item', steps(op("s", "insert", "x"))),
    ("Argument.Count", 7, steps(op("d", "put", "k")), FIRST, '"put" takes a key and an item', steps(op("d", "put", "k", "x"))),
    ("Argument.Count", 7, steps(op("a", "balance", 1)), FIRST, '"balance" takes no argument', steps(BALANCE)),
    ("Argument.Amount", 7, steps(op("a", "deposit", "5")), FIRST, "the amount is a text; write it without quotes", steps(op("a", "deposit", 5))),
    ("Argument.Amount", 7, steps(op("a", "deposit", 10 ** 20)), FIRST,
     "the amount is a number that is not written as a whole number of 64 bits, and has to be a whole number from 1 to "
     "1,000,000,000,000", steps(op("a", "deposit", 10 ** 12))),
    ("Argument.Amount", 7, steps(op("a", "deposit", 0)), FIRST,
     "the amount is 0, and has to be a whole number from 1 to 1,000,000,000,000", steps(op("a", "deposit", 1))),
    ("Argument.Amount", 7, steps(op("a", "deposit", 5.0)), FIRST,
     "the amount is a number that is not written as a whole number of 64 bits, and has to be a whole number from 1 to 1,000,000,000,000",
     steps(op("a", "deposit", 5))),
    ("Argument.Item", 7, steps(op("q", "enq", 5)), FIRST, "5 is no text: items are written in quotes", steps(op("q", "enq", "5"))),
    ("Argument.Item", 7, steps(op("d", "put", "k", True)), FIRST, "true is no text: items are written in quotes",
     steps(op("d", "put", "k", "true"))),
    ("Name.Argument", 3, steps(op("d", "put", "a@b", "x")), FIRST, '"a@b"' + NAME, steps(op("d", "put", "a_b", "x"))),
    ("Name.Argument", 3, steps(op("d", "put", "k", "x.y")), FIRST, '"x.y"' + NAME, steps(op("d", "put", "k", "x-y"))),
    ("Shape.Else", 2, steps({**GOOD, "else": False}, version=5), FIRST + "/else", '"else" is false, and has to be true or a reason',
     steps({**GOOD, "else": True}, version=5)),
    ("Shape.Else", 2, steps({**GOOD, "else": "late"}), FIRST + "/else", '"else" is of version 5 on, and this document is of version 4',
     steps({**GOOD, "else": "late"}, version=5)),
    ("Name.Else", 3, steps({**GOOD, "else": "too late"}, version=5), FIRST + "/else", '"too late"' + LONG_NAME,
     steps({**GOOD, "else": "too-late"}, version=5)),
    ("Source.Label", 7, given({"form": "n"}), LATER + "/op/2", SOURCE + '; did you mean "from"?', given({"from": "n"})),
    ("Source.Label", 7, given({"from": 7}), LATER + "/op/2", SOURCE, given({"from": "n"})),
    ("Source.Seen", 8, given({"from": "m"}), LATER + "/op/2", 'no label "m" is seen here', given({"from": "n"})),
    ("Source.Number", 10, steps(ADDED, op("a", "deposit", {"from": "n"}), version=5), LATER + "/op/2",
     'the reply of "insert" is no number', given({"from": "n"})),
    ("Source.Item", 10, steps(SEEN, op("d", "put", "k", {"from": "n"}), version=5), LATER + "/op/3", 'the reply of "balance" has no item',
     steps(op("q", "deq", **{"as": "n"}), op("d", "put", "k", {"from": "n"}), version=5)),
    ("Few.Nodes", 12, steps(*[{"abort": True}] * 100_001), "/transactions/0/100000",
     "more than 100,000 ifs, subactions, aborts, parallel steps and children", steps(*[{"abort": True}] * 100_000)),
    ("Shape.Test", 2, tested(SEEN), LATER, 'an "if" has just one of "is", "atleast" and "item"', tested(SEEN, atleast=1)),
    ("Shape.TestedLabel", 2, steps({"if": 1, "atleast": 1, "then": []}), FIRST, '"if" is 1' + TEXT, tested(SEEN, atleast=1)),
    ("Shape.Then", 2, steps(SEEN, {"if": "n", "atleast": 1}), LATER, '"then" is missing', tested(SEEN, atleast=1)),
    ("SeenLabel", 8, tested({"sub": [SEEN]}, atleast=1), LATER + "/if", 'no label "n" is seen here', tested(SEEN, atleast=1)),
    ("Condition.Word", 10, tested(SEEN, **{"is": 1}), LATER, '"is" is 1' + TEXT, tested(SEEN, atleast=1)),
    ("Condition.Word", 10, tested(SEEN, **{"is": "yes"}), LATER, '"yes" is no word of a reply of "balance"', tested(SEEN, atleast=1)),
    ("Condition.Word", 10, tested({**DONE, "as": "n"}, **{"is": "ok"}), LATER, '"ok" is no outcome: "committed" and "aborted" are',
     tested({**DONE, "as": "n"}, **{"is": "committed"})),
    ("Condition.Number", 10, tested(ADDED, atleast=1), LATER, 'the reply of "insert" is no number', tested(ADDED, **{"is": "added"})),
    ("Condition.Number", 10, tested({**DONE, "as": "n"}, atleast=1), LATER, "the outcome of a subaction is no number",
     tested({**DONE, "as": "n"}, **{"is": "aborted"})),
    ("Condition.AtLeast", 10, tested(SEEN, atleast="1"), LATER, '"atleast" is "1", and has to be a whole number from -2^63 to 2^63 - 1',
     tested(SEEN, atleast=1)),
    ("Condition.AtLeast", 10, tested(SEEN, atleast=2 ** 63), LATER,
     '"atleast" is 9223372036854775808, and has to be a whole number from -2^63 to 2^63 - 1', tested(SEEN, atleast=2 ** 63 - 1)),
    ("Condition.HasItem", 10, tested(SEEN, item="x"), LATER, 'the reply of "balance" has no item', tested(SEEN, atleast=1)),
    ("Condition.HasItem", 10, tested({**DONE, "as": "n"}, item="x"), LATER, "the outcome of a subaction has no item",
     tested({**DONE, "as": "n"}, **{"is": "aborted"})),
    ("Condition.TestedItem", 10, tested(op("q", "deq", **{"as": "n"}), item=1), LATER, '"item" is 1' + TEXT,
     tested(op("q", "deq", **{"as": "n"}), item="1")),
    ("Name.TestedItem", 3, tested(op("q", "deq", **{"as": "n"}), item="a b"), LATER, '"a b"' + NAME,
     tested(op("q", "deq", **{"as": "n"}), item="a-b")),
    ("Shape.Body", 2, steps({"parallel": [{"handler": []}]}), FIRST + "/parallel/0", '"sub" is missing', steps({"parallel": [{"sub": []}]})),
    ("Shape.Handlers", 2, steps({"sub": [], "handlers": {}}, version=2), FIRST,
     '"handlers" is of version 3 on, and this document is of version 2', steps({"sub": [], "handlers": {}}, version=3)),
    ("Shape.Handlers", 2, steps({"sub": [], "handlers": []}), FIRST, '"handlers" is a list, and has to be an object of JSON',
     steps({"sub": [], "handlers": {}})),
    ("Name.Handlers", 3, steps({"sub": [], "handlers": {"late": [], "too late": []}}), FIRST + "/handlers/too late",
     '"too late"' + NAME, steps({"sub": [], "handlers": {"late": [], "too_late": []}})),
    ("Shape.Abort", 2, steps({"abort": False}), FIRST, '"abort" is false, and has to be true or a reason', steps({"abort": True})),
    ("Shape.Abort", 2, steps({"abort": "late"}, version=2), FIRST, "a reason is of version 3 on, and this document is of version 2",
     steps({"abort": "late"}, version=3)),
    ("Name.Reason", 3, steps({"abort": "too late"}), FIRST, '"too late"' + NAME, steps({"abort": "too-late"})),
    ("Shape.Children", 2, steps({"parallel": {}}), FIRST, '"parallel" is an object, and has to be a list', steps({"parallel": []})),
)

# Bytes that are no JSON, and too many.
OTHERS = (
    ("Json", b'{"ordtx":4,', b"fault 1 transaction 0 at line 1 column 11\nthis cannot be read as JSON\n"),
    ("Few.Bytes", b" " * 67_108_865, b"fault 12 transaction 0 at\nthe document has more than 67,108,864 bytes\n"),
    ("Few.Bytes", b'{"ordtx":4}' + b" " * 67_108_865, b"fault 12 transaction 0 at\nthe document has more than 67,108,864 bytes\n"),
    ("Few.Bytes", b'{"ordtx":5}' + b" " * 536_870_912, b"fault 12 transaction 0 at\nthe document has more than 536,870,912 bytes\n"),
)


def try_mistake(program, number, document, path, words, mended):
    given = bytes_of(document)
    transaction = 1 if path.startswith("/transactions/") else 0
    place = " " + path + position(given, path) if path else ""
    line = "fault %d transaction %d at%s" % (number, transaction, place)
    program.expect(words, ["locate"], given, ("%s\n%s\n" % (line, words)).encode(), 1)
    out, status, err = program.run(["check"], bytes_of(mended))
    program.compare("mended: " + words, ["check"], (status, err), (0, b""))


def rules():
    """The names of the rules that there are, each after what is wrong where it isn't kept."""
    source = (ROOT / "crates" / "doc_rules" / "src" / "rule.rt").read_text()
    enums = {name: re.findall(r"^    (\w+)(?:\((?:OperandPlace, |u8, )?(\w+)\))?", body, re.MULTILINE)
             for name, body in re.findall(r"^pub enum (\w+) \{\n(.*?)^\}", source, re.MULTILINE | re.DOTALL)}
    return {"%s.%s" % (rule, one) if held in enums else rule
            for rule, held in enums["Rule"] for one, _ in enums.get(held, [("", "")])}


def try_all(program):
    for rule, number, document, path, words, mended in MISTAKES:
        try_mistake(program, number, document, path, words, mended)
    for rule, given, lines in OTHERS:
        program.expect(rule, ["locate"], given, lines, 1)
    program.compare("each rule has a mistake", [], ({m[0] for m in MISTAKES} | {o[0] for o in OTHERS},), (rules(),))
    page = (ROOT / "docs" / "DECISIONS.md").read_text()
    program.compare("how many rules there are", [], ("there are %d." % len(rules()) in page,), (True,))
