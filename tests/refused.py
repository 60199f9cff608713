"""Documents that are refused, each with its first fault, and documents near them that are read.

A fault is its number and its transaction. None stands for a document that is read.
"""

from documents import nested

ACCOUNT = '{"name":"a","kind":"account","start":100}'
BROKEN = '{"name":"b","kind":"account","start":-1}'
QUEUE = '{"name":"q","kind":"queue","start":[]}'

# Bytes that are no JSON, or no object.
BYTES = [
    ('', (1, 0)),
    ('[]', (2, 0)),
    ('7', (2, 0)),
    ('7 7', (1, 0)),
    ('1,2', (1, 0)),
    ('[}', (1, 0)),
    ('[1e308,-0,0.5]', (2, 0)),
    ('[1e309]', (1, 0)),
    ('[{"a":-1e309}]', (1, 0)),
    ('[01]', (1, 0)),
    ('{"a":[1,2],"b":[3],}', (1, 0)),
    ('{"a":[1,2],"b":{"c":null}', (1, 0)),
    ('{"a":[1,2],"b":{"c":null}}', (2, 0)),
]

# Members that are left out, are of another sort, stand twice or have another name.
SHAPES = [
    ('{"ordtx":1,"objects":[],"transactions":[],"at":[]}', (2, 0)),
    ('{"at":[],"ordtx":1,"objects":[],"transactions":[]}', (2, 0)),
    ('{"ordtx":1,"transactions":[]}', (2, 0)),
    ('{"objects":[],"ordtx":1}', (2, 0)),
    ('{"objects":[],"transactions":[]}', (2, 0)),
    ('{"ordtx":"1","objects":[],"transactions":[]}', (2, 0)),
    ('{"ordtx":1,"objects":{},"transactions":[]}', (2, 0)),
    ('{"ordtx":1,"objects":[],"transactions":{}}', (2, 0)),
    ('{"ordtx":1,"objects":[],"transactions":[],"ordtx":6}', (2, 0)),
    ('{"ordtx":5,"objects":[],"transactions":[],"ordtx":1}', None),
    ('{"ordtx":1,"objects":[],"transactions":[[7]],"transactions":[]}', None),
    ('{"ordtx":1,"objects":[],"transactions":[[]],"transactions":[[7]]}', (2, 1)),
]

# Objects and transactions, of which the first fault is the same wherever the members stand.
ORDERS = [
    (ACCOUNT, '[],[{"op":["a","deposit",-1]}],[7]', (7, 2)),
    (ACCOUNT, '[],[7],[{"op":["a","deposit",-1]}]', (2, 2)),
    (ACCOUNT, '[{"as":"n","op":["a","balance"]}],[7]', (2, 2)),
    (ACCOUNT, '[{"as":"n","op":["a","balance"]}],[]', None),
    (ACCOUNT, '[{"op":["a","deposit",0.5]}]', (7, 1)),
    (ACCOUNT, '[7],[1e309]', (1, 0)),
    (BROKEN, '[7]', (13, 0)),
    ('7', '[7]', (2, 0)),
]

# Objects of a version.
OBJECTS = [
    (1, '{"name":"a","kind":"account"}', (2, 0)),
    (1, '{"name":"m","kind":"max","start":5}', (2, 0)),
    (2, '{"name":"m","kind":"max","start":5}', None),
    (2, '{"name":"m","kind":"max","start":1000000000000000}', None),
    (2, '{"name":"m","kind":"max","start":1000000000000001}', (13, 0)),
    (1, '{"name":"","kind":"account","start":0}', (3, 0)),
    (1, '{"name":"a b","kind":"account","start":-1}', (3, 0)),
    (1, '{"name":"a","kind":"account","start":0},{"name":"a","kind":"account","start":-1}', (4, 0)),
    (1, '{"name":"a","kind":"account","start":-1}', (13, 0)),
    (1, '{"name":"a","kind":"account","start":1000000000000001}', (13, 0)),
    (1, '{"name":"c","kind":"counter","start":-1000000000000000}', None),
    (1, '{"name":"c","kind":"counter","start":-1000000000000001}', (13, 0)),
    (1, '{"name":"abcdefghijklmnopqrstuvwxyz012345","kind":"account","start":1000000000000000}', None),
    (1, '{"name":"abcdefghijklmnopqrstuvwxyz0123456","kind":"account","start":0}', (3, 0)),
    (1, '{"name":"s","kind":"set","start":["x","x"]}', (13, 0)),
    (1, '{"name":"q","kind":"queue","start":[""]}', (3, 0)),
    (1, '{"name":"d","kind":"directory","start":[["k","v"],["k","w"]]}', (13, 0)),
    (1, '{"name":"d","kind":"directory","start":[["k"]]}', (13, 0)),
]

# Operations on an account.
OPERATIONS = [
    ('[],{}', (2, 2)),
    ('[{"op":["a"]}]', (2, 1)),
    ('[{"op":["b","deposit",1]}],[{"op":["a","deposit",0]}]', (5, 1)),
    ('[{"op":["a","deq"]}]', (6, 1)),
    ('[{"op":["a","deposit",1,2]}]', (7, 1)),
    ('[{"op":["a","deposit",0]}]', (7, 1)),
    ('[{"op":["a","deposit",1000000000000001]}]', (7, 1)),
    ('[{"op":["a","balance"],"as":"n"},{"op":["a","balance"],"as":"n"}]', (9, 1)),
    ('[{"op":["a","balance"],"as":""}]', (3, 1)),
]

# Labels, and tests of them.
LABELS = [
    ('[{"sub":[{"op":["a","balance"],"as":"n"}]},{"if":"n","atleast":1,"then":[]}]', (8, 1)),
    ('[{"op":["a","balance"],"as":"n"},{"if":"n","is":"ok","then":[]}]', (10, 1)),
    ('[{"op":["a","balance"],"as":"n"},{"if":"n","atleast":1.0,"then":[]}]', (10, 1)),
    ('[{"op":["a","balance"],"as":"n"},{"if":"n","atleast":1,"is":"ok","then":[]}]', (2, 1)),
    ('[{"sub":[],"as":"n"},{"sub":[{"op":["a","balance"],"as":"n"}]}]', (9, 1)),
    ('[{"sub":[{"op":["a","balance"],"as":"n"}],"as":"n"},{"if":"n","is":"aborted","then":[]}]', None),
    ('[{"parallel":[{"sub":[],"as":"n"},{"sub":[],"as":"n"}]}]', (9, 1)),
    ('[{"sub":[],"as":"n"},{"parallel":[{"sub":[],"as":"n"}]}]', (9, 1)),
    ('[{"parallel":[{"sub":[],"as":"n"},{"sub":[{"sub":[],"as":"n"}]}]}]', None),
    ('[{"parallel":[{"sub":[],"as":"n"},{"sub":[{"if":"n","is":"aborted","then":[]}]}]}]', (8, 1)),
]

# What a version has, in a transaction.
VERSIONS = [
    (2, '[{"abort":"x"}]', (2, 1)),
    (3, '[{"abort":"x"}]', None),
    (3, '[{"abort":""}]', (3, 1)),
    (1, '[{"abort":false}]', (2, 1)),
    (2, '[{"sub":[],"handlers":{}}]', (2, 1)),
    (3, '[{"sub":[],"handlers":{}}]', None),
    (3, '[{"sub":[],"handlers":[]}]', (2, 1)),
    (3, '[{"sub":[],"handlers":{"":[]},"handler":{}}]', (3, 1)),
    (3, '[{"sub":[],"handlers":{"x":{}},"handler":[]}]', (2, 1)),
]

# What a block may be nested in, up to 24 deep: what stands before the inner block, and after it.
AROUND = [
    ('{"sub":', '}'),
    ('{"sub":[],"handler":', '}'),
    ('{"sub":[],"handlers":{"x":', '}}'),
    ('{"parallel":[{"sub":', '}]}'),
]
BALANCE = '{"op":["a","balance"],"as":"n"}'

# A limit is reached before anything else is asked of the step beyond it: the version, how many of a step, the step, and
# the one after them in a second transaction.
LOOK = '{"op":["a","balance"]}'
COUNTED = [
    (1, 100_000, LOOK, '{"op":["b","balance"]}', (12, 2)),
    (1, 99_999, LOOK, LOOK, None),
    (4, 100_000, LOOK, LOOK, None),
    (1, 100_000, '{"abort":true}', '{"if":"n","is":"ok","then":[]}', (12, 2)),
]

BRANCH = '{"if":"n","atleast":0,"then":'


def document(version, objects, transactions):
    return '{"ordtx":%s,"objects":[%s],"transactions":[%s]}' % (version, objects, transactions)


def in_other_order(version, objects, transactions):
    return '{"transactions":[%s],"objects":[%s],"ordtx":%s}' % (transactions, objects, version)


def all_documents():
    """Each document with its fault."""
    yield from BYTES
    yield from SHAPES
    for version in (0, 1, 2, 3, 4, 5, 6, "1.0"):
        yield document(version, "", ""), None if version in (1, 2, 3, 4, 5) else (2, 0)
    for objects, transactions, fault in ORDERS:
        yield document(1, objects, transactions), fault
        yield in_other_order(1, objects, transactions), fault
    for version, objects, fault in OBJECTS:
        yield document(version, objects, ""), fault
    for transactions, fault in OPERATIONS + LABELS:
        yield document(1, ACCOUNT, transactions), fault
    for version, transactions, fault in VERSIONS:
        yield document(version, ACCOUNT, transactions), fault
    for version, fault in ((1, (6, 1)), (2, None)):
        yield document(version, QUEUE, '[{"op":["q","length"]}]'), fault
    for begin, end in AROUND:
        for levels, fault in ((23, None), (24, (11, 1))):
            yield document(3, ACCOUNT, nested(levels, begin, end)), fault
    for levels, fault in ((22, None), (23, (11, 1))):
        within = nested(levels, BRANCH, "}")
        yield document(1, ACCOUNT, "[%s,%s%s}]" % (BALANCE, BRANCH, within)), fault
    for version, count, step, last, fault in COUNTED:
        yield document(version, ACCOUNT, "[%s],[%s]" % (",".join([step] * count), last)), fault
    for levels, fault in ((126, (2, 0)), (127, (1, 0))):
        yield nested(levels, "", ""), fault


def try_all(program):
    for text, fault in all_documents():
        given, name = text.encode(), "refused: %.60s" % text
        if fault is None:
            program.expect(name, ["check"], given, None)
        else:
            program.expect_fault_everywhere(name, given, *fault)
