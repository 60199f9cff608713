"""Documents that are too long to keep, and what is printed for them."""

import itertools
import json
import random

import randoms

ACCOUNT = '{"name":"a","kind":"account","start":0}'


def document(objects, transactions, version=1):
    return ('{"ordtx":%d,"objects":[%s],"transactions":[%s]}'
            % (version, ",".join(objects), ",".join(transactions))).encode()


def sorted_by_name(given):
    """The same document, with the members of all objects of JSON sorted by name."""
    return json.dumps(json.loads(given), sort_keys=True, separators=(",", ":")).encode()


def lines(texts):
    return "".join(text + "\n" for text in texts).encode()


def nested(levels, open_step, close_step, innermost="[]"):
    """Blocks of one step, each in the step of the one around it."""
    return "[%s" % open_step * levels + innermost + "%s]" % close_step * levels


def operations(*counts, version=1):
    """Transactions of so many deposits each."""
    step = '{"op":["a","deposit",1]}'
    blocks = ["[%s]" % ",".join([step] * count) for count in counts]
    return document([ACCOUNT], blocks, version)


def try_nesting(program):
    subactions = ["T 1 committed"] + [
        "S 1%s committed" % (".1.b" * level + ".1") for level in range(23)]
    program.expect_report(
        "23 subactions, each in another",
        document([ACCOUNT], [nested(23, '{"sub":', "}")]),
        lines(subactions + ["= a account 0", "rounds 1"]))
    program.expect_fault_everywhere(
        "24 subactions, each in another",
        document([ACCOUNT], [nested(24, '{"sub":', "}")]), 11, 1)

    siblings = ["T 1 committed"] + [
        "S 1%s committed" % (".1.1.b" * level + ".1.1") for level in range(23)]
    program.expect_report(
        "23 parallel steps, each in another",
        document([], [nested(23, '{"parallel":[{"sub":', "}]}")]),
        lines(siblings + ["rounds 1"]))
    program.expect_fault_everywhere(
        "24 parallel steps, each in another",
        document([], [nested(24, '{"parallel":[{"sub":', "}]}")]), 11, 1)

    balance = '[{"op":["a","balance"],"as":"n"},'
    if_step = '{"if":"n","atleast":0,"then":'
    branches = ["T 1 committed", "O 1.1 a balance = 0"] + [
        "I 1.2%s then" % (".t.1" * level) for level in range(23)]
    program.expect_report(
        "23 ifs, each in another",
        document([ACCOUNT], [balance + nested(23, if_step, "}")[1:]]),
        lines(branches + ["= a account 0", "rounds 1"]))
    program.expect_fault_everywhere(
        "24 ifs, each in another",
        document([ACCOUNT], [balance + nested(24, if_step, "}")[1:]]), 11, 1)

    aborted = '{"parallel":[{"sub":[{"abort":"r"}],"handlers":{"r":'
    handlers = ["T 1 committed"]
    for level in range(23):
        path = "1" + ".1.1.h:r" * level + ".1.1"
        handlers += ["S %s aborted r" % path, "A %s.b.1 r" % path]
    program.expect_report(
        "23 handlers, each in another",
        document([], [nested(23, aborted, "}}]}")], 3),
        lines(handlers + ["rounds 1"]))


def try_limits(program):
    program.expect(
        "10,000 transactions", ["run"], document([], ["[]"] * 10_000),
        lines(["T %d committed" % n for n in range(1, 10_001)] + ["rounds 1"]))
    program.expect_fault_everywhere(
        "10,001 transactions", document([], ["[]"] * 10_001), 12, 0)

    named = ['{"name":"o%d","kind":"counter","start":0}' % n
             for n in range(1001)]
    program.expect(
        "1,000 objects", ["check"], document(named[:1000], []),
        b"ok objects 1000 transactions 0 operations 0\n")
    program.expect_fault_everywhere(
        "1,001 objects", document(named, []), 12, 0)

    program.expect(
        "100,000 operations", ["check"], operations(50_000, 50_000),
        b"ok objects 1 transactions 2 operations 100000\n")
    program.expect_fault_everywhere(
        "100,001 operations", operations(50_000, 50_001), 12, 2)
    program.expect(
        "1,000,000 operations", ["check"],
        operations(500_000, 500_000, version=4),
        b"ok objects 1 transactions 2 operations 1000000\n")
    program.expect_fault(
        "1,000,001 operations", ["check"],
        operations(500_000, 500_001, version=4), 12, 2)

    aborts = '{"abort":true}'
    for count, fault in ((100_000, None), (100_001, 12)):
        given = document([], ["[%s]" % ",".join([aborts] * count)])
        if fault is None:
            program.expect("100,000 other nodes", ["check"], given,
                           b"ok objects 0 transactions 1 operations 0\n")
        else:
            program.expect_fault_everywhere("100,001 other nodes", given, 12, 1)

    for count, fault in ((100_000, None), (100_001, 12)):
        start = '{"name":"q","kind":"queue","start":[%s]}' % ",".join(
            ['"x"'] * count)
        given = document([start], [])
        if fault is None:
            program.expect("100,000 starting entries", ["check"], given,
                           b"ok objects 1 transactions 0 operations 0\n")
        else:
            program.expect_fault_everywhere(
                "100,001 starting entries", given, 12, 0)

    for version, most in ((1, 32), (4, 32), (5, 128)):
        for length in (most, most + 1):
            given = document(
                ['{"name":"%s","kind":"account","start":0}' % ("n" * length)], [], version)
            told = "a name of %d bytes in version %d" % (length, version)
            if length == most:
                program.expect(told, ["check"], given,
                               b"ok objects 1 transactions 0 operations 0\n")
            else:
                program.expect_fault_everywhere(told, given, 3, 0)


# For each limit of version 5: its name, how much it is, a document with so much, and what `check` prints of it but the count.
LARGE = (
    ("objects", 1_000_000, lambda count: document(['{"name":"o%d","kind":"counter","start":0}' % n for n in range(count)], [], 5),
     b"ok objects %d transactions 0 operations 0\n"),
    ("starting entries", 1_000_000, lambda count: document(
        ['{"name":"q","kind":"queue","start":[%s]}' % ",".join(['"x"'] * count)], [], 5),
     b"ok objects 1 transactions 0 operations 0\n"),
    ("transactions", 1_000_000, lambda count: document([], ["[]"] * count, 5),
     b"ok objects 0 transactions %d operations 0\n"),
    ("operations", 9_000_000, lambda count: operations(count - 9, 9, version=5),
     b"ok objects 1 transactions 2 operations %d\n"),
    ("other nodes", 9_000_000, lambda count: document([], ["[%s]" % ",".join(['{"abort":true}'] * count)], 5),
     b"ok objects 0 transactions 1 operations 0\n"),
)


def try_large_limits(program):
    for name, most, made, printed in LARGE:
        program.expect("%d %s" % (most, name), ["check"], made(most), printed % most if b"%d" in printed else printed)
        transaction = {"operations": 2, "other nodes": 1}.get(name, 0)
        program.expect_fault("%d %s" % (most + 1, name), ["check"], made(most + 1), 12, transaction)


def padded(given, length):
    """A document with spaces after it, so that it is so long."""
    return given + b" " * (length - len(given))


# Documents by their version, their bytes, and the fault of that many. Where there is no version, that many are judged as in
# version 1, whatever else is wrong.
LENGTHS = (
    (document([], []), 67_108_864, None), (document([], []), 67_108_865, 12),
    (document([], [], 4), 67_108_864, None), (document([], [], 4), 67_108_865, 12),
    (document([], [], 5), 67_108_865, None), (document([], [], 5), 536_870_912, None), (document([], [], 5), 536_870_913, 12),
    (document([], [], 6), 67_108_864, 2), (document([], [], 6), 67_108_865, 12),
    (b'{"ordtx":5}', 67_108_865, 2), (b"[5]", 67_108_864, 2), (b"[5]", 67_108_865, 12), (b'{"ordtx":5', 67_108_865, 12),
    (b'{"transactions":[],"objects":[],"ordtx":5}', 67_108_865, None),
    (b'{"ordtx":5,"objects":[],"transactions":[],"ordtx":4}', 67_108_865, 12),
    (b'{"ordtx":4,"objects":[],"transactions":[],"ordtx":5}', 67_108_865, None),
    (document([], ["[7]"], 4), 67_108_865, 12), (document([], ["[7]"], 5), 67_108_865, 2),
)


def try_large(program):
    """What takes much memory, one after the other."""
    try_large_limits(program)
    try_lengths(program)
    try_long_with_workers(program)


def try_long_with_workers(program):
    """A document of more bytes than version 4 has, with spaces between its transactions, is read by threads, too."""
    for version, fault in ((4, 12), (5, None)):
        given = document([ACCOUNT], ["[%s]" % '{"op":["a","deposit",1]}' + " " * 18_000_000] * 4, version)
        for words in (["run"], ["run", "--workers", "1"], ["serial"]):
            out, status, err = program.run(words, given)
            wanted = (b"", 1, b"fault 12 transaction 0\n") if fault else (None, 0, b"")
            program.compare("72 MB of version %d" % version, words, (out, status, err), wanted)
            if not fault:
                program.compare("72 MB of version 5", words, (b"= a account 4\n" in out,), (True,))


def try_lengths(program):
    for given, length, fault in LENGTHS:
        name, long = "%d bytes of %s" % (length, given.decode()), padded(given, length)
        if fault is None:
            program.expect(name, ["check"], long, b"ok objects 0 transactions 0 operations 0\n")
        else:
            program.expect_fault(name, ["check"], long, fault, 1 if b"[7]" in given and fault != 12 else 0)


def try_bytes(program, whole):
    for length in range(len(whole)):
        program.expect_fault("a document's first %d bytes" % length, ["check"],
                             whole[:length], 1, 0)
    program.expect_fault_everywhere("200 brackets", b"[" * 200, 1, 0)
    program.expect_fault_everywhere(
        "127 arrays, each in another", b"[" * 127 + b"]" * 127, 2, 0)
    program.expect_fault_everywhere(
        "128 arrays, each in another", b"[" * 128 + b"]" * 128, 1, 0)
    program.expect_fault_everywhere(
        "a number that is too large", document([], ["[1e309]"]), 1, 0)
    program.expect_fault_everywhere(
        "a fault, and then a number that is too large",
        document([], ["[7]", "[1e309]"]), 1, 0)
    program.expect_fault_everywhere(
        "the largest number", document([], ["[1e308]"]), 2, 1)
    program.expect_fault_everywhere("a byte that is no text", b"\xff", 1, 0)
    program.expect_fault("64 MiB of spaces", ["check"], b" " * 67_108_864, 1, 0)
    program.expect_fault("a byte more", ["check"], b" " * 67_108_865, 12, 0)
    program.expect("a document of 64 MiB", ["run"], padded(document([], []), 67_108_864), b"rounds 0\n")


def try_withdrawals(program):
    count = 100
    given = document(['{"name":"a","kind":"account","start":100}'],
                     ['[{"op":["a","withdraw",1]}]'] * count)
    report = []
    for number in range(1, count + 1):
        report += ["T %d committed" % number,
                   "O %d.1 a withdraw 1 = ok" % number]
    report += ["= a account 0", "rounds %d" % count]
    program.expect_report("100 withdrawals", given, lines(report))
    counts = ["runs %d %d" % (n, n) for n in range(1, count + 1)]
    program.expect("100 withdrawals", ["run", "--audit"], given,
                   lines(report + counts))


def try_forms(program):
    """One document written in other ways, each with the same report."""
    version = '"ordtx":4'
    objects = '"objects":[{"name":"c","kind":"counter","start":-3}]'
    add = '{"op":["c","add",5],"as":"n"}'
    test = '{"if":"n","is":"ok","then":[{"op":["c","sub",1]}]}'
    members = (version, objects, '"transactions":[[%s,%s]]' % (add, test))
    plain = "{%s}" % ",".join(members)
    report = lines(["T 1 committed", "O 1.1 c add 5 = ok", "I 1.2 then",
                    "O 1.2.t.1 c sub 1 = ok", "= c counter 1", "rounds 1"])
    forms = (
        ("a start below 0", plain),
        ("its members turned round", "{%s}" % ",".join(members[::-1])),
        ("members sorted by name", sorted_by_name(plain).decode()),
        ("a sorted version that is said again", sorted_by_name(plain).decode()[:-1] + ',"ordtx":4}'),
        ("a sorted version after another",
         sorted_by_name(plain).decode().replace('{"kind"', '{"start":{"ordtx":1},"kind"')),
        ("a version that is said again", '{"ordtx":1,%s' % plain[1:]),
        ("objects that are said again", '{"objects":[],%s' % plain[1:]),
        ("transactions that are said again",
         '{"transactions":[[{"op":7}]],%s' % plain[1:]),
        ("transactions that are said three times",
         '{"transactions":7,"transactions":{},%s' % plain[1:]),
        ("lists that are said again after each other",
         '{"transactions":[[]],"objects":[7],%s' % plain[1:]),
        ("an empty list between the members",
         '{%s,"transactions":[],%s,"objects":[],%s,%s}' % (members[0], members[2], members[1], members[2])),
        ("a name of a list within an earlier one",
         '{"transactions":[{"objects":[],"transactions":[]}],%s' % plain[1:]),
        ("a list whose name has escapes, and then again",
         '{"objec\\u0074s":[7],%s' % plain[1:]),
        ("an operation that is said again",
         plain.replace('{"op"', '{"op":["d","deq"],"op"')),
        ("a label before its operation",
         plain.replace(add, '{"as":"n","op":["c","add",5]}')),
        ("escapes in names", plain.replace('"c"', '"\\u0063"')
         .replace('"n"', '"\\u006E"')),
        ("escapes in words", plain.replace('"op"', '"\\u006fp"')
         .replace('"add"', '"\\u0061dd"').replace('"ordtx"', '"ordt\\u0078"')),
        ("spaces and line ends", " \n" + plain.replace(",", " ,\r\n\t ")
         .replace(":", " : ").replace("]", " ] ") + "\t\n"),
    )
    orders = itertools.permutations(members)
    forms += tuple(("an order of its members", "{%s}" % ",".join(order)) for order in orders)
    for name, text in forms:
        program.expect_report(name, text.encode(), report, [])
        start = text.replace("-3", "7")
        program.expect_report(name + ", from 7", start.encode(),
                              report.replace(b"counter 1", b"counter 11"), [])
    for name, amount in (("a point", "5.0"), ("an exponent", "5e0"),
                         ("a sign", "-5"), ("a sign alone", "-0"),
                         ("64 bits", "18446744073709551615"),
                         ("more bits", "18446744073709551616")):
        program.expect_fault_everywhere(
            "an amount with %s" % name,
            plain.replace('add",5', 'add",%s' % amount).encode(), 7, 1)
    program.expect_fault_everywhere(
        "a third member", plain.replace('"as":"n"', '"as":"n","at":1').encode(),
        2, 1)
    for name, text in (("a comma more", plain[:-1] + ",}"),
                       ("a bracket more", plain + "}"),
                       ("half a pair", plain.replace('"c"', '"\\ud800"')),
                       ("an unquoted word", plain.replace('"n"', "n"))):
        program.expect_fault_everywhere(name, text.encode(), 1, 0)


def try_refusals(program):
    """Faults of each kind, in each order of a document's members."""
    account = ACCOUNT
    broken = '{"name":"b","kind":"account","start":-1}'
    below = '[{"op":["a","deposit",-1]}]'
    rows = (
        ("a later fault", account, "[],%s,[7]" % below, 7, 2),
        ("a fault after a turned step", account,
         '[{"as":"n","op":["a","balance"]}],[7]', 2, 2),
        ("a fault of JSON after another", account, "[7],[01]", 1, 0),
        ("a fault of an object", broken, "[7]", 13, 0),
        ("an object that is none", "7", "[7]", 2, 0),
    )
    for name, objects, transactions, number, transaction in rows:
        members = ['"ordtx":1', '"objects":[%s]' % objects,
                   '"transactions":[%s]' % transactions]
        for order in itertools.permutations(members):
            text = "{%s}" % ",".join(order)
            program.expect_fault_everywhere(
                name, text.encode(), number, transaction)
            for other in ('"at":7,', '"objects":7,'):
                more = "{%s%s}" % (other, ",".join(order))
                program.expect_fault_everywhere(
                    name + " beside " + other, more.encode(),
                    *((number, transaction)
                      if number == 1 or "objects" in other else (2, 0)))
            for lacking in members:
                fewer = "{%s}" % ",".join(m for m in order if m != lacking)
                if number > 1:
                    program.expect_fault_everywhere(
                        name + " without " + lacking, fewer.encode(), 2, 0)


def by_reason(order):
    """A subaction with handlers by reason in this order."""
    blocks = {"a": '{"op":["s","insert","one"]}', "b": '{"op":["s","insert","two"]},{"op":["s","insert","one"]}',
              "c": '{"op":["s","insert","three"]}'}
    return document(['{"name":"s","kind":"set","start":[]}'], [
        '[{"sub":[{"abort":"b"}],"handlers":{%s}},{"op":["s","insert","three"]}]'
        % ",".join('"%s":[%s]' % (reason, blocks[reason]) for reason in order)], 4)


BY_REASON = ["T 1 committed", "S 1.1 aborted b", "A 1.1.b.1 b", "O 1.1.h:b.1 s insert two = added",
             "O 1.1.h:b.2 s insert one = added", "O 1.2 s insert three = added", "= s set {one two three}"]


def try_reasons(program):
    """In each order the same report: names are numbered by the order of the reasons' bytes."""
    for order in itertools.permutations("abc"):
        program.expect_report("handlers by reason, as " + "".join(order), by_reason(order),
                              lines(BY_REASON + ["rounds 1"]), [])


def try_steps(program):
    """Steps whose members come in other orders, each with the same report."""
    queued = '{"op":["q","enq","%s"]}'
    body = '"sub":[%s,{"abort":"x"}]' % (queued % "b")
    handlers = ('"handlers":{"y":[{"abort":true}],"x":[%s]}' % (queued % "h"))
    handler = '"handler":[%s]' % (queued % "g")
    label = '"as":"o"'
    label_tested = '"if":"n"'
    test = '"atleast":-3'
    first = '"then":[%s]' % (queued % "t")
    second = '"else":[%s]' % (queued % "e")
    children = ('{"parallel":[{"sub":[{"op":["c","add",1]}],"as":"m"},'
                '{"sub":[{"parallel":[{"sub":[]}]},{"abort":true}],'
                '"handler":[]}]}')
    after = ('{"if":"o","is":"aborted","then":[{"op":["c","sub",9]}]},'
             '{"if":"m","is":"committed","then":[%s]}' % (queued % "z"))
    report = lines([
        "T 1 committed", "O 1.1 c read = -3", "I 1.2 then",
        "O 1.2.t.1 q enq t = ok", "S 1.3 aborted x",
        "O 1.3.b.1 q enq b = ok", "A 1.3.b.2 x", "O 1.3.h:x.1 q enq h = ok",
        "S 1.4.1 committed", "O 1.4.1.b.1 c add 1 = ok",
        "S 1.4.2 aborted", "S 1.4.2.b.1.1 committed", "A 1.4.2.b.2",
        "I 1.5 then", "O 1.5.t.1 c sub 9 = ok",
        "I 1.6 then", "O 1.6.t.1 q enq z = ok",
        "= c counter -11", "= q queue [t h z]", "rounds 1"])
    orders = (
        ((label_tested, test, first, second), (body, handlers, handler, label)),
        ((test, label_tested, first, second), (body, label, handlers, handler)),
        ((label_tested, first, test, second), (body, handlers, label, handler)),
        ((label_tested, second, first, test), (body, handler, handlers, label)),
        ((second, first, test, label_tested), (label, handler, handlers, body)),
    )
    try_reasons(program)
    for condition, subaction in orders:
        program.expect_report(
            "steps with %s and %s first" % (condition[1], subaction[1]),
            document(['{"name":"c","kind":"counter","start":-3}',
                      '{"name":"q","kind":"queue","start":[]}'],
                     ['[{"op":["c","read"],"as":"n"},{%s},{%s},%s,%s]'
                      % (",".join(condition), ",".join(subaction), children,
                         after)], 4), report, [])
    for name, step, version, fault in (
            ("a reason before there were any", '{"abort":"x"}', 2, 2),
            ("handlers before there were any",
             '{"sub":[],"handlers":{"x":[]}}', 2, 2),
            ("an abort with a label", '{"abort":true,"as":"n"}', 4, 2),
            ("no abort", '{"abort":false}', 4, 2),
            ("two handlers", '{"sub":[],"handler":[],"handler":{}}', 4, 2),
            ("a child that is no subaction",
             '{"parallel":[{"op":["a","balance"]}]}', 4, 2),
            ("a label that its own body sets",
             '{"sub":[{"sub":[],"as":"n"}],"as":"n"}', 4, None),
            ("a label that is not seen in its own body",
             '{"sub":[{"if":"n","is":"aborted","then":[]}],"as":"n"}', 4, 8),
            ("a label of an earlier child", '{"parallel":[{"sub":[],"as":"n"},'
             '{"sub":[],"as":"n"}]}', 4, 9),
            ("a label that is no name", '{"sub":[],"as":""}', 4, 3),
            ("a handler that is no block", '{"sub":[],"handler":{}}', 4, 2)):
        given = document([ACCOUNT], ["[%s]" % step], version)
        if fault:
            program.expect_fault_everywhere(name, given, fault, 1)
        else:
            program.expect(name, ["check"], given, None)


def try_long_transactions(program):
    """Transactions that leave more operations than are listed: they are performed by their blocks and records. Where each has
    objects of its own, several workers commit them, and most of what they leave needs no list. Of the last one, several
    workers render the report."""
    for seed, count, apart in (*((seed, 4, False) for seed in range(4)), *((seed, 16, True) for seed in range(4)), (4, 48, True)):
        given = json.dumps(randoms.long(random.Random(seed), count, 400, apart)).encode()
        program.expect_report("%d long random transactions%s, %d" % (count, " apart" if apart else "", seed), given,
                              program.run(["run", "--workers", "1"], given)[0])


def try_all(program, whole):
    try_nesting(program)
    try_forms(program)
    try_refusals(program)
    try_steps(program)
    try_limits(program)
    try_bytes(program, whole)
    try_withdrawals(program)
    try_long_transactions(program)
