"""How many more requests for memory, and threads, a document of twice the size takes. Counts, not seconds."""

import os
import resource
import subprocess
import tempfile

import preloaded
from documents import ACCOUNT, document, sorted_by_name

SET = '{"name":"s","kind":"set","start":[]}'
LARGE = ('{"name":"s","kind":"set","start":[%s]}'
         % ",".join('"i%d"' % item for item in range(10_000)))
HOT = '{"name":"a","kind":"account","start":1000000}'
BOUND = '{"name":"d","kind":"directory","start":[["k","v"]]}'

PLANS = (["--workers", "4"], ["--workers", "16", "--cut", "1"])

# What `locate` prints of a fault after 160,000 operations.
LATE_FAULT = (b"fault 6 transaction 1 at /transactions/0/160000 line 1 column 4000081\n"
              b'"depposit" is no operation of an account; did you mean "deposit"?\n')

# Threads that one pass may start, which a document of any size may have more.
A_PASS = 16


def op(*words):
    return '{"op":[%s]}' % ",".join(
        str(word) if isinstance(word, int) else '"%s"' % word for word in words)


def block(*steps):
    return "[%s]" % ",".join(steps)


def chain(count):
    """Each transaction depends on the one before it."""
    return document([SET], [
        block(op("s", "insert", "p%d" % i), op("s", "has", "p%d" % (i - 1)))
        for i in range(1, count + 1)])


def hot(count):
    """Withdrawals from one account, which conflict with one another."""
    return document([HOT], [block(op("a", "withdraw", 1))] * count)


def jobs(count):
    """Enqueues of items of their own, which conflict with one another."""
    return document(['{"name":"q","kind":"queue","start":[]}'], [
        block(op("q", "enq", "j%d" % number)) for number in range(count)])


def taken(count):
    """Binds of a key that is bound already, and then puts on it."""
    return document([BOUND], [
        block(*(op("d", "bind", "k", "yz"[i & 1]) for i in range(count))),
        block(*[op("d", "put", "k", "v")] * count)], version=4)


def forks(count):
    """Parallel steps of empty children beside a large set."""
    return document([LARGE], [block(*['{"parallel":[{"sub":[]},{"sub":[]}]}'] * count)])


def labels(count):
    """Ten labels for each child of one wide parallel step."""
    balances = ['{"op":["a","balance"],"as":"l%d"}' % i for i in range(10 * count)]
    return document([ACCOUNT], [
        block(*balances, '{"parallel":[%s]}' % ",".join(['{"sub":[]}'] * count))])


def nested(depth):
    """Parallel steps in one another, whose later child reads what the earlier one changes."""
    inner = block(*[op("a", "balance")] * 20)
    for _ in range(depth):
        inner = block('{"parallel":[{"sub":[%s]},{"sub":[%s,%s]}]}' % (
            op("a", "deposit", 1), op("a", "balance"), inner[1:-1]))
    return document([ACCOUNT], [inner])


# For each shape a size, and how many times as much a document of twice the size may take.
SHAPES = ((chain, 250, 2.2), (hot, 250, 2.2), (jobs, 250, 2.2), (taken, 2_000, 2.2),
          (forks, 250, 2.2), (labels, 1_000, 2.2), (nested, 11, 2.2))


def try_shape(program, library, plan, shape, size, times):
    words = ["run", *plan]
    counts = []
    for count in (size, 2 * size):
        got, made, started = preloaded.run(
            library, 0, words, program.path, shape(count))
        counts.append((made, started))
        program.compare("%s of %d" % (shape.__name__, count), words, got,
                        (None, 0, b""))
    (made, started), (more, later) = counts
    grown = "requests %d, then %d; threads %d, then %d" % (
        made, more, started, later)
    grows = more <= times * made and later <= 2.2 * started + A_PASS
    program.compare("growth of %s: %s" % (shape.__name__, grown), words,
                    (grows, None, None), (True, None, None))


def try_threads_of_nested(program, library):
    """One transaction, whose children run ahead once."""
    words = ["run", "--workers", "64", "--cut", "1"]
    got, _, started = preloaded.run(
        library, 0, words, program.path, nested(23))
    program.compare("nested of 23 starts %d threads" % started, words,
                    (got[1], started <= 64, None), (0, True, None))


def try_workers(program, library):
    """Of much work that is independent each worker has its part, and so of its report. One worker starts no thread."""
    accounts = ['{"name":"a%d","kind":"account","start":0}' % i for i in range(500)]
    independent = document(accounts, [
        block(*(op("a%d" % (i % 500), "deposit", 1) for i in range(first, first + 20)))
        for first in range(0, 100_000, 20)])
    for workers, least, most in (("1", 0, 0), ("2", 2, 1_000), ("4", 6, 1_000)):
        words = ["run", "--workers", workers]
        got, _, started = preloaded.run(library, 0, words, program.path, independent, together=True)
        program.compare("threads of independent work: %d" % started, words,
                        (got[1], least <= started <= most, None), (0, True, None))


def asked_by_rounds(program, library, accounts, name):
    """For how many bytes a round on an account asks, beside a million."""
    words, asked = ["run", "--workers", "1"], []
    for count in (100, 200):
        given = document(accounts, [block(op(name, "withdraw", 1))] * count, version=5)
        got, _, _, more = preloaded.counted(library, 0, words, program.path, given)
        program.compare("%d rounds on %s of a million" % (count, name), words, (got[1], got[2]), (0, b""))
        asked.append(more)
    return (asked[1] - asked[0]) // 100


def try_last_of_many(program, library):
    """A round takes hardly more memory for the last object than for the first, however many there are."""
    accounts = ['{"name":"a%d","kind":"account","start":1000}' % i for i in range(1_000_000)]
    first, last = (asked_by_rounds(program, library, accounts, name) for name in ("a0", "a999999"))
    program.compare("bytes for a round on the first and the last of a million: %d, %d" % (first, last), ["run"],
                    (last < first + 40_000,), (True,))


def try_rendering(program, library):
    """Each worker renders a part of a long report. Nothing else starts a thread here, and a short report none."""
    deposit = op("a", "deposit", 1)
    child = '{"sub":[%s]}' % ",".join([deposit] * 10)
    shapes = ((9_000, "transactions", lambda count: [block(deposit)] * count),
              (18_000, "steps of one transaction", lambda count: [block(*[deposit] * count)]),
              (1_800, "subactions of one transaction", lambda count: [block(*[child] * count)]))
    for count, name, made_of in shapes:
        for size, workers, expected in ((count, "1", 0), (count, "2", 1), (count, "4", 3), (count // 9, "4", 0)):
            deposits = document([ACCOUNT], made_of(size))
            for command in ("run", "serial"):
                words = [command, "--workers", workers]
                got, _, started = preloaded.run(library, 0, words, program.path, deposits, together=True)
                program.compare("threads of a report of %d %s: %d" % (size, name, started), words,
                                (got[1], started, None), (0, expected, None))


def try_reading_at_once(program, library):
    """Each worker reads a part of a long document. With a fault at its end nothing is run, and no report is written."""
    deposits = block(*[op("a", "deposit", 1)] * 5)
    for size, workers, expected in ((9_900, "1", 0), (9_900, "2", 1), (9_900, "4", 3), (3_000, "4", 0)):
        faulty = document([ACCOUNT], [deposits] * size + [block(op("a", "other"))])
        for given in (faulty, sorted_by_name(faulty)):
            for command in ("run", "serial", "carry", "check"):
                words = [command, "--workers", workers]
                got, _, started = preloaded.run(library, 0, words, program.path, given, together=True)
                program.compare("threads that read %d transactions: %d" % (size, started), words,
                                (got[1], started, None), (1, expected, None))


# A step, and how many requests for memory its reading may take. By a tree it takes three times as many.
STEPS = (
    ("operations", op("a", "deposit", 1), 0),
    ("subactions", '{"sub":[%s],"handler":[{"abort":true}]}'
     % op("a", "deposit", 1), 6),
    ("conditions", '{"if":"n","atleast":1,"then":[%s],"else":[{"abort":true}]}'
     % op("a", "deposit", 1), 6),
    ("children", '{"parallel":[{"sub":[%s]},{"sub":[]}]}'
     % op("a", "deposit", 1), 8),
    ("calls of replies", '{"op":["a","deposit",{"from":"n"}]}', 1),
    ("refusals", '{"op":["a","withdraw",1],"else":"r"}', 1),
)


def try_reading(program, library):
    """Most steps are read straight from the text, not by trees of their members."""
    first = '{"op":["a","balance"],"as":"n"}'
    for name, step, most in STEPS:
        words = ["check"]
        got, made, _ = preloaded.run(
            library, 0, words, program.path,
            document([ACCOUNT], [block(first, *[step] * 1_000)], version=5))
        program.compare("reading of 1,000 %s: %d requests" % (name, made), words,
                        (got[1], made <= 1_000 * most + 200, None), (0, True, None))


# A kind of start with entries, an entry, and how many requests for memory it may take. By a tree it takes three times as many.
STARTS = (
    ("set", '"i%d"', 1.5),
    ("queue", '"i%d"', 1.5),
    ("directory", '["i%d","v"]', 1.5),
)


def try_starts(program, library):
    """Objects are read straight from the text: an entry takes the text of its name and a place in its object."""
    for kind, entry, most in STARTS:
        words, entries = ["check"], ",".join(entry % number for number in range(10_000))
        given = document(['{"name":"s","kind":"%s","start":[%s]}' % (kind, entries)], [])
        for order, text in (("", given), ("sorted ", sorted_by_name(given))):
            got, made, _ = preloaded.run(library, 0, words, program.path, text)
            program.compare("reading of a %s%s of 10,000: %d requests" % (order, kind, made), words,
                            (got[1], made <= 10_000 * most + 200, None), (0, True, None))


def try_input(program, library):
    """The buffer of a file is made once; that of another input grows with it."""
    counts = []
    with tempfile.TemporaryDirectory() as folder:
        path = os.path.join(folder, "document.json")
        for spaces in (0, 1 << 22):
            given = document([ACCOUNT], []) + b" " * spaces
            with open(path, "wb") as file:
                file.write(given)
            for words, piped in ((["check", path], b""), (["check"], given)):
                got, made, _ = preloaded.run(library, 0, words, program.path, piped)
                program.compare("a document and %d spaces" % spaces, words[:1], (got[1], got[2]), (0, b""))
                counts.append(made)
    program.compare("requests for a file, and piped, by length: %s" % counts, ["check"],
                    (counts[2] == counts[0], counts[3] > counts[1] + 4), (True, True))


def try_refusing(program, library):
    """What is no document is refused without a tree, or with one of the first 1,000 objects."""
    many = ",".join(['{"a":0}'] * 10_000)
    for name, given, most in (
            ("a list", "[%s]" % many, 200),
            ("a fault of JSON", "[%s" % many, 200),
            ("another member",
             '{"ordtx":1,"objects":[],"transactions":[],"at":[%s]}' % many, 200),
            ("a later number that is too large",
             '{"ordtx":1,"objects":[],"transactions":[%s,1e309]}' % many, 200),
            ("too many objects",
             '{"ordtx":1,"objects":[%s],"transactions":[]}' % many, 2_200)):
        words = ["check"]
        got, made, _ = preloaded.run(
            library, 0, words, program.path, given.encode())
        program.compare("refusing of %s: %d requests" % (name, made), words,
                        (got[1], made <= most, None), (1, True, None))


def try_late_fault(program):
    """A fault at the end of a long transaction is found by a tree of one step at a time: as one tree, they would take 180 MB."""
    steps = [op("a", "deposit", 7)] * 160_000 + [op("a", "depposit", 7)]
    with tempfile.TemporaryFile() as given:
        given.write(document([ACCOUNT], [block(*steps)], version=4))
        for words, expected in ((["check"], (b"", 1, b"fault 6 transaction 1\n")), (["locate"], (LATE_FAULT, 1, b""))):
            given.seek(0)
            done = subprocess.run([program.path, *words], stdin=given, capture_output=True,
                                  preexec_fn=lambda: resource.setrlimit(resource.RLIMIT_AS, (1 << 26, 1 << 26)))
            program.compare("a late fault in 64 MB", words, (done.stdout, done.returncode, done.stderr), expected)


def try_plan(program, library, plan):
    for shape, size, times in SHAPES:
        try_shape(program, library, plan, shape, size, times)


def try_all(program, library):
    """All but the shapes, whose plans `try_plan` tries one by one, since they take long."""
    try_refusing(program, library)
    try_late_fault(program)
    try_reading(program, library)
    try_starts(program, library)
    try_input(program, library)
    try_reading_at_once(program, library)
    try_threads_of_nested(program, library)
    try_workers(program, library)
    try_last_of_many(program, library)
    try_rendering(program, library)
