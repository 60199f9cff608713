"""Documents whose objects and items were picked by a hash that anyone can read. Counts instructions, not seconds.

The hash is that of `committed`'s filter. Where chains were found by it, headings that fall together would share one, and a
document would take a time that grows with the square of its size. What falls together here takes at most twice as much as
what doesn't.
"""

import itertools
import re
import subprocess
import tempfile

from documents import document

WORD = 2 ** 64
PUT, REFUSAL = 0x80, 0x4

# The account is the first object, the directories follow.
DIRECTORIES = 300
FEW_ITEMS, MANY_ITEMS = 10_000, 70_000


def hashed(place, number):
    """The hash of an object's place and an item's number from 1, or of the object alone: the number 0."""
    return (place * 0x9E3779B97F4A7C15 + number) * 0xD6E8FEB86659FD93 % WORD >> 32


def key_of(place, number, heading_class):
    return (hashed(place, number) + heading_class * 0x9E3779B9) % 2 ** 32


def slot_of(key, slots):
    return (key * 0x9E3779B97F4A7C15 % WORD >> 32) % slots


def of_one_summary():
    """Three keys of directories that share a slot of 4,096 by one hash. Two of them share a slot by the other, too."""
    firsts, seen = [], {}
    for place, number in itertools.product(range(1, DIRECTORIES), range(1, FEW_ITEMS)):
        if hashed(place, 64 * number) % 4096 == 7:
            firsts.append((place, number))
            twin = seen.setdefault(slot_of(key_of(place, number, PUT), 16_384), (place, number))
            if twin != (place, number) and len(firsts) > 2:
                third = next(pair for pair in firsts if pair not in (twin, (place, number)))
                return [twin, (place, number), third]
    raise AssertionError("no two of the keys share a slot")


def of_one_chain():
    """Keys of directories that share a slot of 4,096."""
    pairs = itertools.product(range(1, DIRECTORIES), range(1, FEW_ITEMS))
    return [pair for pair in pairs if slot_of(key_of(*pair, PUT), 4096) == 7]


def of_one_key():
    """A key of a directory that is hashed as a refused withdrawal from the account is."""
    refusal = key_of(0, 0, REFUSAL)
    return next(pair for pair in itertools.product((282,), range(1, MANY_ITEMS)) if key_of(*pair, PUT) == refusal)


def put(pair, value=1):
    return '{"op":["o%d","put","i%d","i%d"]}' % (*pair, value)


WITHDRAW = '{"op":["o0","withdraw",1]}'


def text(transactions, items):
    """A document with so many items, which sets number from 1 as they start."""
    names = ['"i%d"' % number for number in range(1, items + 1)]
    objects = ['{"name":"o0","kind":"account","start":0}']
    objects += ['{"name":"o%d","kind":"directory","start":[]}' % place for place in range(1, DIRECTORIES)]
    objects += ['{"name":"s%d","kind":"set","start":[%s]}' % (first, ",".join(names[first:first + 10_000]))
                for first in range(0, items, 10_000)]
    return document(objects, ["[%s]" % ",".join(steps) for steps in transactions], version=4)


def cut(steps, length):
    return [steps[first:first + length] for first in range(0, len(steps), length)]


def summaries(headings, count):
    """Two transactions whose puts take turns at three keys."""
    steps = [put(pair) for pair in itertools.islice(itertools.cycle(headings), count)]
    return text(cut(steps, count // 2), FEW_ITEMS)


def chains(headings, count):
    """Transactions that each put at all of many keys, and then something of their own at one key."""
    puts = [put(pair) for pair in headings[:count // 16]]
    return text([[*puts, put((1, FEW_ITEMS), value)] for value in range(1, 17)], FEW_ITEMS)


def turns(headings, count):
    """Transactions in which refused withdrawals and puts at one key take turns."""
    return text([[WITHDRAW, put(headings[0])] * 4] * (count // 8), MANY_ITEMS)


def ways():
    """A shape, headings that fall together, others, and a number of operations."""
    chain = of_one_chain()
    return (
        (summaries, of_one_summary(), [(1, 1), (1, 2), (1, 3)], 4_000),
        (chains, chain, [(place, number + 1) for place, number in chain], 5_600),
        (turns, [of_one_key()], [(282, MANY_ITEMS)], 8_000),
    )


def instructions(program, content):
    """How many instructions `run` takes."""
    with tempfile.NamedTemporaryFile() as file, tempfile.NamedTemporaryFile("r") as log:
        file.write(content)
        file.flush()
        subprocess.run(["valgrind", "--tool=cachegrind", "--cache-sim=no", "--cachegrind-out-file=/dev/null",
                        "--log-file=" + log.name, program.path, "run", "--workers", "1", file.name],
                       stdout=subprocess.DEVNULL, check=True)
        return int(re.search(r"I +refs: +([\d,]+)", log.read())[1].replace(",", ""))


def try_way(program, way):
    shape, together, apart, count = way
    for operations in (count, 2 * count):
        fallen = instructions(program, shape(together, operations))
        spread = instructions(program, shape(apart, operations))
        program.compare("%s of %d: %d instructions, %d of other hashes" % (
            shape.__name__, operations, fallen, spread), ["run"], (fallen <= 2 * spread, None, None), (True, None, None))


def try_all(program):
    for way in ways():
        try_way(program, way)
