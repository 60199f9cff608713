"""Documents for the figures, made by seed."""

import json
import random


def document(objects, transactions, version=4):
    return ('{"ordtx":%d,"objects":[%s],"transactions":[%s]}'
            % (version, ",".join(objects), ",".join(transactions))).encode()


def turned_round(document):
    """The same document, its members in another order: it is read by small trees."""
    members = json.loads(document)
    return json.dumps({key: members[key] for key in reversed(members)},
                      separators=(",", ":")).encode()


def account(name, start):
    return '{"name":"%s","kind":"account","start":%d}' % (name, start)


def operation(*words):
    return '{"op":[%s]}' % ",".join(
        str(word) if isinstance(word, int) else '"%s"' % word for word in words)


def block(steps):
    return "[%s]" % ",".join(steps)


def deposits(count=1_000_000):
    """So many deposits on one account, in two transactions."""
    half = block([operation("a", "deposit", 1)] * (count // 2))
    return document([account("a", 0)], [half, half])


def withdrawals(count=1_000):
    """Transactions that each withdraw from one account: the worst case, of count rounds."""
    return document([account("a", count)],
                    [block([operation("a", "withdraw", 1)])] * count)


def sales(count=10_000):
    """Transactions that each take a seat, and where there was one note an order of their own."""
    start = ['{"name":"seats","kind":"account","start":%d}' % (count * 4 // 5), '{"name":"orders","kind":"directory","start":[]}']
    return document(start, [
        '[{"op":["seats","withdraw",1],"as":"s"},{"if":"s","is":"ok","then":[%s]}]' % operation("orders", "put", "o%d" % number, "ok")
        for number in range(count)])


def between(count=10_000, accounts=1_000, seed=4):
    """Transfers between so many accounts, all or nothing."""
    chosen = random.Random(seed)
    blocks = []
    for _ in range(count):
        source, target = chosen.sample(range(accounts), 2)
        blocks.append('[{"sub":[{"op":["a%d","withdraw",%d],"as":"w"},{"if":"w","is":"no","then":[{"abort":true}]},%s]}]' % (
            source, chosen.randrange(1, 100), operation("a%d" % target, "deposit", chosen.randrange(1, 100))))
    return document([account("a%d" % number, 1_000) for number in range(accounts)], blocks)


def takers(count=10_000):
    """Transactions that each take the first item of one queue."""
    start = block(['"i%d"' % item for item in range(count)])
    return document(['{"name":"q","kind":"queue","start":%s}' % start], [block([operation("q", "deq")])] * count)


def sizes(count=10_000):
    """Inserts of different items, each with a look at the size."""
    return document(['{"name":"s","kind":"set","start":[]}'],
                    [block([operation("s", "insert", "i%d" % item), operation("s", "size")]) for item in range(count)])


def taken_back(count=1_000, operations=60):
    """Transactions of a hot withdrawal, and of operations that are taken back."""
    undone = block([*(operation("b%d" % number, "deposit", 1) for number in range(operations)), '{"abort":true}'])
    return document([account("a", count), *(account("b%d" % number, 0) for number in range(operations))],
                    [block(['{"sub":%s}' % undone, operation("a", "withdraw", 1)])] * count)


def long_nets(count=400, length=257):
    """Transactions of so many operations on items of their own, beside a hot withdrawal."""
    return document([account("a", count), '{"name":"s","kind":"set","start":[]}'], [
        block([operation("a", "withdraw", 1), *(operation("s", "insert", "i%d_%d" % (number, item)) for item in range(length - 1))])
        for number in range(count)])


def neighbours(count=2_000, operations=40):
    """A chain of transactions that each raise a register many times, and look at that of the one before."""
    return document(['{"name":"m%d","kind":"max","start":0}' % place for place in range(50)], [
        block([*(operation("m%d" % (number % 50), "raise", number + place + 1) for place in range(operations)),
               *[operation("m%d" % ((number + 49) % 50), "top")] * operations]) for number in range(count)])


def logged_jobs(count=10_000):
    """A log of settings in which every tenth command enqueues a job of its own, and counts it."""
    return document(
        ['{"name":"config","kind":"directory","start":[]}', '{"name":"jobs","kind":"queue","start":[]}',
         '{"name":"seen","kind":"counter","start":0}'],
        [block([operation("jobs", "enq", "j%d" % number), operation("seen", "add", 1)] if number % 10 == 0 else
               [operation("config", "put", "k%d" % (number * 7919 % 400), "v%d" % (number % 50))])
         for number in range(count)])


def alternating(count=10_000):
    """Puts of two values at one key, in turn."""
    return document(['{"name":"d","kind":"directory","start":[]}'],
                    [block([operation("d", "put", "k", "yz"[number & 1])]) for number in range(count)])


def spread(count=10_000, operations=20, objects=1_000, seed=1):
    """Transactions of some operations over many accounts, nearly all deposits."""
    chosen = random.Random(seed)
    blocks = []
    for _ in range(count):
        steps = []
        for _ in range(operations):
            name = "a%d" % chosen.randrange(objects)
            call = "withdraw" if chosen.random() < 0.001 else "deposit"
            steps.append(operation(name, call, chosen.randrange(1, 100)))
        blocks.append(block(steps))
    return document([account("a%d" % n, 1_000_000) for n in range(objects)],
                    blocks)


def collections(size=100_000, count=10_000, seed=2):
    """Transactions that each touch one item of a set, a queue and a directory of so many items."""
    chosen = random.Random(seed)
    third = size // 3
    names = ["x%d" % n for n in range(third)]
    items = ",".join('"%s"' % name for name in names)
    pairs = ",".join('["%s","v"]' % name for name in names)
    objects = ['{"name":"s","kind":"set","start":[%s]}' % items,
               '{"name":"q","kind":"queue","start":[%s]}' % items,
               '{"name":"d","kind":"directory","start":[%s]}' % pairs]
    blocks = []
    for n in range(count):
        name = names[chosen.randrange(third)]
        blocks.append(block([operation("s", "has", name),
                             operation("s", "insert", "n%d" % n),
                             operation("d", "put", "n%d" % n, "w"),
                             operation("q", "enq", "e")]))
    return document(objects, blocks)


def distinct(count=100_000):
    """Transactions that each insert and bind items that no other touches, so many in all."""
    transactions = min(count, 10_000)
    each = count // transactions
    objects = ['{"name":"s","kind":"set","start":[]}',
               '{"name":"d","kind":"directory","start":[]}']
    blocks = []
    for number in range(transactions):
        steps = []
        for item in range(number * each, (number + 1) * each):
            steps.append(operation("s", "insert", "n%d" % item))
            steps.append(operation("d", "bind", "n%d" % item, "w"))
        blocks.append(block(steps))
    return document(objects, blocks)


def enqueues(count=100_000, transactions=10_000):
    """Transactions that enqueue one item, so often in all."""
    return document(['{"name":"q","kind":"queue","start":[]}'],
                    [block([operation("q", "enq", "e")] * (count // transactions))] * transactions)


def relay(count=100_000):
    """A transaction that enqueues so many items, all different, and one that dequeues as many older ones."""
    older = ",".join('"x%d"' % number for number in range(count))
    return document(['{"name":"q","kind":"queue","start":[%s]}' % older],
                    [block([operation("q", "enq", "n%d" % number) for number in range(count)]),
                     block([operation("q", "deq")] * count)])


def register(count=10_000, operations=10):
    """Transactions that raise a register to falling amounts below its number, and read its top."""
    peak = count * operations
    blocks = []
    for number in range(count):
        steps = []
        for place in range(operations // 2):
            steps.append(operation("m", "raise", peak - number * operations - place))
            steps.append(operation("m", "top"))
        blocks.append(block(steps))
    return document(['{"name":"m","kind":"max","start":%d}' % peak], blocks)


def transfers(count=10_000, accounts=999, seed=3):
    """A ledger of transfers, each a subaction with a handler that books a failure."""
    chosen = random.Random(seed)
    objects = [account("a%d" % n, 1_000) for n in range(accounts)]
    objects.append('{"name":"failed","kind":"counter","start":0}')
    blocks = []
    for _ in range(count):
        source, target = chosen.sample(range(accounts), 2)
        amount = chosen.randrange(1, 200)
        blocks.append(
            '[{"sub":[{"op":["a%d","withdraw",%d],"as":"w"},'
            '{"if":"w","is":"no","then":[{"abort":"short"}]},'
            '{"op":["a%d","deposit",%d]}],'
            '"handlers":{"short":[{"op":["failed","add",1]}]}}]'
            % (source, amount, target, amount))
    return document(objects, blocks)


def chain(count=10_000):
    """Transactions, each of which asks for the item that the one before it inserts, and for eight that nobody does."""
    return document(
        ['{"name":"s","kind":"set","start":[]}'],
        [block([operation("s", "insert", "p%d" % number), operation("s", "has", "p%d" % (number - 1)),
                *(operation("s", "has", "q%d" % (8 * number + other)) for other in range(8))])
         for number in range(1, count + 1)])


def taken(count=40_000):
    """So many binds of a key that is bound, and then so many puts of one value on it, in two transactions."""
    return document(
        ['{"name":"d","kind":"directory","start":[["k","v"]]}'],
        [block([operation("d", "bind", "k", "yz"[number & 1]) for number in range(count)]),
         block([operation("d", "put", "k", "v")] * count)])


def forks(count=20_000, items=100_000):
    """Parallel steps of two empty children, beside a set of many items."""
    start = block(['"i%d"' % item for item in range(items)])
    return document(
        ['{"name":"s","kind":"set","start":%s}' % start],
        [block(['{"parallel":[{"sub":[]},{"sub":[]}]}'] * count)])


def labels(count=20_000):
    """A parallel step of so many empty children, after ten labels for each."""
    balances = ['{"op":["a","balance"],"as":"l%d"}' % label for label in range(10 * count)]
    return document(
        [account("a", 0)],
        [block([*balances, '{"parallel":%s}' % block(['{"sub":[]}'] * count)])])


def heavy(mixed=False, transactions=64, operations=10_000, seed=5):
    """Few transactions of many operations, none of which conflict: each has 15 accounts of its own, or one account, one
    set and one directory."""
    rng = random.Random(seed)
    objects, blocks = [], []
    for number in range(transactions):
        accounts = ["a%d_%d" % (number, place) for place in range(1 if mixed else 15)]
        bag, book = "s%d" % number, "d%d" % number
        objects += [account(name, 1_000_000_000) for name in accounts]
        if mixed:
            objects += ['{"name":"%s","kind":"set","start":[]}' % bag, '{"name":"%s","kind":"directory","start":[]}' % book]
        calls = [lambda: operation(rng.choice(accounts), *rng.choice((("deposit", 3), ("withdraw", 2), ("balance",))))]
        if mixed:
            calls.append(lambda: operation(bag, rng.choice(("insert", "remove", "has")), "i%d" % rng.randrange(500)))
            calls.append(lambda: operation(book, "put", "k%d" % rng.randrange(500), "v%d" % rng.randrange(50)))
            calls.append(lambda: operation(book, "lookup", "k%d" % rng.randrange(500)))
        blocks.append(block([rng.choice(calls)() for _ in range(operations)]))
    return document(objects, blocks)


def jobs(count=10_000):
    """A log of settings in which every tenth command enqueues a job of its own."""
    return document(
        ['{"name":"config","kind":"directory","start":[]}', '{"name":"jobs","kind":"queue","start":[]}'],
        [block([operation("jobs", "enq", "j%d" % number) if number % 10 == 0 else
                operation("config", "put", "k%d" % (number * 7919 % 400), "v%d" % (number % 50))])
         for number in range(count)])


def levels(count=20_000):
    """A transaction of so many subactions, each of which inserts an item into one set; one in ten aborts."""
    steps = []
    for number in range(count):
        body = [operation("s", "insert", "n%d" % number)]
        if number % 10 == 0:
            body.append('{"abort":true}')
        steps.append('{"sub":%s}' % block(body))
    return document(['{"name":"s","kind":"set","start":[]}'], [block(steps)])


def wide(children=200, operations=100):
    """Four transactions of a parallel step whose children touch objects of their own."""
    objects = [account("a%d" % n, 0) for n in range(4 * children)]
    blocks = []
    for number in range(4):
        parts = []
        for child in range(children):
            name = "a%d" % (number * children + child)
            parts.append('{"sub":%s}' % block(
                [operation(name, "deposit", 1)] * operations))
        blocks.append('[{"parallel":[%s]}]' % ",".join(parts))
    return document(objects, blocks)
