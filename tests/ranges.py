"""Documents that are read in several ranges, beside the same ones in one range."""

import re

from documents import sorted_by_name

RANGE = 1_048_576  # as in crates/lang/src/document.rt
LEDGER = '{"name":"a","kind":"account","start":0},{"name":"s","kind":"set","start":[]}'


def document(objects, transactions, comma, version=4):
    return ('{"ordtx":%d,"objects":[%s],"transactions":[%s]}'
            % (version, objects, comma.join(transactions))).encode()


def transactions(count):
    """So many transactions, of which every tenth names an item that none before it names."""
    for number in range(count):
        step = ('{"op":["s","insert","i%d"]}' % number if number % 10 == 0
                else '{"op":["a","deposit",%d]}' % (number + 1))
        wide = ",".join(['{"op":["a","balance"]}'] * 16)
        yield "[%s,%s]" % (step, wide)


def mixed(count):
    """So many transactions with items and reasons that are new in each range, in every place that can name one."""
    for number in range(count):
        key, item, reason = "k%d" % (number // 7), "v%d" % (number // 3), "r%d" % (number // 5)
        yield ('[{"op":["d","put","%s","%s"]},{"op":["d","lookup","%s"],"as":"x"},'
               '{"if":"x","item":"%s","then":[{"op":["q","enq","%s"]}],"else":[{"abort":true}]},'
               '{"sub":[{"op":["s","insert","%s"]},{"abort":"%s"}],'
               '"handlers":{"%s":[{"op":["a","deposit",1]}]},"handler":[{"op":["s","remove","%s"]}]},'
               '{"parallel":[{"sub":[{"op":["s","has","%s"]}]},{"sub":[{"op":["q","deq"]}]}]}]'
               % (key, item, key, item, item, key, reason, reason, item, item))


def made(count):
    """So many transactions, of which some have calls that are made of replies, with items and reasons that are new in each range."""
    for number in range(count):
        key, reason = "k%d" % (number // 7), "r%d" % (number // 5)
        yield ('[{"op":["q","enq","%s"]},{"op":["q","deq"],"as":"x","else":"%s"},{"op":["d","put",{"from":"x"},"%s"]},'
               '{"op":["d","bind","%s",{"from":"x"}],"else":true},%s]'
               % (key, reason, key, key, ",".join(['{"op":["a","balance"]}'] * 8)) if number % 9 == 0 else
               '[{"op":["s","insert","%s"]},%s]' % (key, ",".join(['{"op":["a","balance"]}'] * 16)))


MIXED = LEDGER + ',{"name":"d","kind":"directory","start":[]},{"name":"q","kind":"queue","start":["v2"]}'
COMMAS = (",", ",\n  ", ",\t \r\n")
POSITION = re.compile(rb" line \d+ column \d+")


def answer(program, command, given):
    """What a command returns. Where a part begins isn't the same for all commas."""
    out, status, err = program.run([command], given)
    return POSITION.sub(b"", out), status, err


def try_same(program, name, objects, listed, commands=("check", "serial", "locate"), commas=COMMAS, version=4):
    """A comma that doesn't follow its bracket at once is no cut: so the last document is one range."""
    whole = document(objects, listed, " ,", version)
    for command in commands:
        wanted = answer(program, command, whole)
        for comma in commas:
            got = answer(program, command, document(objects, listed, comma, version))
            program.compare(name, [command], got, wanted)


def try_workers(program, name, whole):
    """What is printed is the same, however many threads read the document."""
    for command in ("run", "serial", "check", "carry"):
        wanted = program.run([command, "--workers", "1"], whole)
        for workers in ("2", "3", "7", "64"):
            words = [command, "--workers", workers]
            program.compare(name, words, program.run(words, whole), wanted)


def try_sorted(program, whole):
    """A document whose members are sorted by name has the same answers, however many threads read it."""
    turned = sorted_by_name(whole)
    for command in ("run", "serial", "check", "carry"):
        wanted = program.run([command], whole)
        program.compare("sorted members", [command], program.run([command], turned), wanted)
    try_workers(program, "sorted members", turned)


def try_faults(program, listed):
    """A fault in each range: texts and lists with cuts, other operations, values that aren't whole."""
    for place in (0, 3_000, 5_500, len(listed) - 1):
        for fault in ('[{"op":["a","],[",1]}]', '[{"op":["s","insert","],["]}]',
                      '[{"op":["a","other"]}]', "[[1],[2]]", "7"):
            try_same(program, "fault in a range", objects=LEDGER,
                     listed=listed[:place] + [fault] + listed[place + 1:],
                     commands=("check", "locate"), commas=COMMAS[:1])
        for fault in ('[{"op":["a","balance"]}', '{"op":["a","balance"]}]', "[],", ""):
            try_same(program, "no value in a range", objects=LEDGER,
                     listed=listed[:place] + [fault] + listed[place + 1:],
                     commands=("check",), commas=COMMAS[:1])


def try_all(program):
    listed = list(transactions(8_000))
    assert len(document(LEDGER, listed, ",")) > 3 * RANGE
    try_same(program, "ranges", LEDGER, listed)
    try_faults(program, listed)
    # Pairs with cuts between them, in which the first range ends.
    pairs = ",".join('["k%d","v%d"]' % (number, number)
                     for number in range(90_000))
    held = '{"name":"d","kind":"directory","start":[%s]}' % pairs
    try_same(program, "pairs", LEDGER + "," + held, listed)
    try_workers(program, "pairs", document(LEDGER + "," + held, listed, ","))
    for comma in COMMAS:
        try_workers(program, "threads", document(MIXED, mixed(4_000), comma))
    try_sorted(program, document(MIXED, mixed(4_000), ","))
    try_same(program, "calls of replies", MIXED, list(made(4_000)), commas=COMMAS[:1], version=5)
    try_workers(program, "calls of replies", document(MIXED, made(4_000), ",", 5))
    broken = list(mixed(4_000))
    broken[3_000] = '[{"op":["s","insert","],["]}]'
    try_workers(program, "a fault and threads", document(MIXED, broken, ","))
