"""Names that all have one hash under a hasher without a key, beside as many ordinary names.

`alike` makes names that the kit's own hasher (`FoldHasher`) can't tell apart. The program hashes
names by random keys, so it reads them as it reads others. While it compares names it calls
nothing that a library loaded before it could count, so its processor time is measured, with much
room: with that hasher so many names would take a hundred times as long.
"""

import itertools
import resource
import subprocess

from documents import ACCOUNT, document

BYTES = b"abcdefghijklmnopqrstuvwxyzABCDEFGHIJKLMNOPQRSTUVWXYZ0123456789_-"
MOST = 2 ** 64 - 1
INITIAL, MULTIPLIER = 0x243f6a8885a308d3, 0x9e3779b97f4a7c15
NAMES = 30_000

# How many times as long as ordinary names they may take, and seconds for the start of a run.
TIMES, START = 4, 0.2

QUEUE = '{"name":"q","kind":"queue","start":[]}'
DIRECTORY = '{"name":"d","kind":"directory","start":[]}'


def word(text, at):
    return int.from_bytes(text[at:at + 8], "little")


def mixed(state, text, at):
    product = (word(text, at) ^ state) * (word(text, at + 8) ^ MULTIPLIER)
    return (product & MOST) ^ product >> 64


def hash_of(text):
    """What `FoldHasher` holds of a text of 32 bytes."""
    return mixed(mixed((INITIAL + len(text)) & MOST, text, 0), text, 16)


def texts(length):
    return (bytes(text) for text in itertools.product(BYTES, repeat=length))


def alike(count):
    """Names of 32 bytes with one hash: where the third word is what the hasher holds of the first
    two, it goes on with 0, whatever the fourth is."""
    for first in texts(16):
        third = mixed((INITIAL + 32) & MOST, first, 0).to_bytes(8, "little")
        if all(byte in BYTES for byte in third):
            break
    names = [first + third + b"aaaa" + last
             for last in itertools.islice(texts(4), count)]
    assert {hash_of(name) for name in names} == {0}
    return [name.decode() for name in names]


def ordinary(count):
    return ["%032d" % number for number in range(count)]


def joined(form, names):
    return ",".join(form % name for name in names)


def start(kind, form):
    return lambda names: document(
        ['{"name":"o","kind":"%s","start":[%s]}' % (kind, joined(form, names))],
        [], 2)


def steps(declared, form, before="", behind=""):
    return lambda names: document(
        [declared], ["[%s%s%s]" % (before, joined(form, names), behind)], 4)


SHAPES = (
    ("items of a set", start("set", '"%s"')),
    ("items of a queue", start("queue", '"%s"')),
    ("keys of a directory", start("directory", '["%s","v"]')),
    ("arguments", steps(QUEUE, '{"op":["q","enq","%s"]}')),
    ("keys as arguments", steps(DIRECTORY, '{"op":["d","put","%s","v"]}')),
    ("labels of operations",
     steps(ACCOUNT, '{"op":["a","balance"],"as":"%s"}')),
    ("labels before operations",
     steps(ACCOUNT, '{"as":"%s","op":["a","balance"]}')),
    ("labels of subactions", steps(ACCOUNT, '{"sub":[],"as":"%s"}')),
    ("labels of children",
     steps(ACCOUNT, '{"sub":[],"as":"%s"}', '{"parallel":[', ']}')),
    ("reasons", steps(ACCOUNT, '{"abort":"%s"}')),
    ("reasons of handlers",
     steps(ACCOUNT, '"%s":[]', '{"sub":[],"handlers":{', '}}')),
)


def turned_round(given):
    """The same document in another order, which is read by small trees."""
    head, transactions = given[:-1].split(b',"transactions":', 1)
    return b'{"transactions":%s,%s}' % (transactions, head[1:])


def seconds(program, given, limit):
    """The processor time that `check` of a document takes, or None where it fails or takes longer."""
    before = resource.getrusage(resource.RUSAGE_CHILDREN).ru_utime
    try:
        done = subprocess.run([program.path, "check"], input=given,
                              stdout=subprocess.PIPE, timeout=limit)
    except subprocess.TimeoutExpired:
        return None
    after = resource.getrusage(resource.RUSAGE_CHILDREN).ru_utime
    return None if done.returncode else after - before


def try_shape(program, name, usual_document, its_document):
    usual = seconds(program, usual_document, 60)
    taken = most = None
    if usual is not None:
        most = TIMES * usual + START
        taken = seconds(program, its_document, 3 * most)
    told = "names of one hash as %s: %s seconds, others %s" % (name, taken, usual)
    program.compare(told, ["check"],
                    (taken is not None and taken <= most, None, None),
                    (True, None, None))


def try_all(program):
    names, others = alike(NAMES), ordinary(NAMES)
    for name, of in SHAPES:
        try_shape(program, name, of(others), of(names))
        try_shape(program, name + ", turned round",
                  turned_round(of(others)), turned_round(of(names)))
