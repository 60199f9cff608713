"""The scripts of `examples/` that make documents: what they make of their samples, what they refuse and where, and their names."""

import collections
import json
import pathlib
import random
import re
import subprocess
import sys
import tempfile

from schema import SCHEMA
from validator import Validator

ROOT = pathlib.Path(__file__).resolve().parent.parent
EXAMPLES = ROOT / "examples"
MOST_LINES = 120

sys.path.insert(0, str(EXAMPLES))
import journal  # noqa: E402

# Each sample, and the script with its options that makes its document.
SAMPLES = (("postings.csv", "postings.py"), ("entries.csv", "postings.py", "--covered", "till"), ("picks.tsv", "picks.py"),
           ("replay.log", "replay.py"))

PAYMENTS, ENTRIES = b"payer,paid,amount\n", b"transaction,account,currency,amount\n"
NO_AMOUNT = "no amount: '%s'"
NO_COMMA = "an amount has a point and no comma: '%s'"
NO_NUMBER = "no whole number: '%s'"
SURPLUS = "a surplus field; a field with a comma needs quotes, and an amount has a point"
NO_QUOTE = "a quote that isn't closed, or a field that isn't all in quotes"
NO_UTF_8 = "bytes that are no UTF-8"
MARK = "a byte order mark; write the file without one"
NO_COMMAND = "none of SET, UNSET, LOCK, UNLOCK, PUSH, POP, JOIN, LEAVE: '%s'"

# For each script what it refuses: the bytes, the line and the column, and what it says of them.
REFUSED = (
    ("postings.py", b"", "1:1", "there is no column 'payer'"),
    ("postings.py", b"payer,paid\n", "1:11", "there is no column 'amount'"),
    ("postings.py", b"payer,paid,sum\n", "1:12", "an unknown column: 'sum'"),
    ("postings.py", b"payer;paid;amount\n", "1:1", "an unknown column: 'payer;paid;amount'"),
    ("postings.py", b"payer,paid,payer,amount\n", "1:12", "the column 'payer' is there twice"),
    ("postings.py", PAYMENTS + b",a,5\na\n", "3:2", "there is no field for the column 'paid'"),
    ("postings.py", PAYMENTS + b",a,5\n\n", "3:1", "there is no field for the column 'paid'"),
    ("postings.py", PAYMENTS + b",a,5,\n", "2:6", SURPLUS),
    ("postings.py", PAYMENTS + b",a,5\na,b,12,50\n", "3:8", SURPLUS),
    ("postings.py", PAYMENTS + b',a,"1,5"\n', "2:4", NO_COMMA % "1,5"),
    ("postings.py", PAYMENTS + b',a,"1,200.50"\n', "2:4", NO_COMMA % "1,200.50"),
    ("postings.py", PAYMENTS + b"a,b,nan\n", "2:5", NO_AMOUNT % "nan"),
    ("postings.py", PAYMENTS + b"a,b,1e3\n", "2:5", NO_AMOUNT % "1e3"),
    ("postings.py", PAYMENTS + b"a,b,1_0\n", "2:5", NO_AMOUNT % "1_0"),
    ("postings.py", PAYMENTS + b"a,b,\n", "2:5", NO_AMOUNT % ""),
    ("postings.py", PAYMENTS + "a,b,٣\n".encode(), "2:5", NO_AMOUNT % "٣"),
    ("postings.py", PAYMENTS + b"a,b,1.005\n", "2:5", "more than 2 digits after the point: 1.005"),
    ("postings.py", PAYMENTS + b"a,b,10000000000.01\n", "2:5", "more than 1,000,000,000,000 of the smallest unit: 10000000000.01"),
    ("postings.py", PAYMENTS + b",a,1" + b"0" * 9999, "2:4",
     "more than 1,000,000,000,000,000 of the smallest unit: 1" + "0" * 9999),
    ("postings.py", PAYMENTS + b",a,-5\n", "2:4", "a would start with -500, which is too small or too large"),
    ("postings.py", PAYMENTS + b",a,10000000000000\n,a,0.01\n", "3:4",
     "a would start with 1000000000000001, which is too small or too large"),
    ("postings.py", PAYMENTS + b"a,,5\n", "2:3", "nobody is paid"),
    ("postings.py", PAYMENTS + b'b,"a\n,c,5\n', "2:3", NO_QUOTE),
    ("postings.py", PAYMENTS + b'b,a"b"c,5\n', "2:3", NO_QUOTE),
    ("postings.py", PAYMENTS + b',"a\r\nb",5\r\n,"c""d",x\r\n', "4:9", NO_AMOUNT % "x"),
    ("postings.py", PAYMENTS + b',"a\n\nb",x\n', "4:4", NO_AMOUNT % "x"),
    ("postings.py", b"\xef\xbb\xbf" + PAYMENTS, "1:1", MARK),
    ("postings.py", b"\xff\xfep\0a\0", "1:1", NO_UTF_8),
    ("postings.py", PAYMENTS + b",a,5\n\xc3\xa4,b\xe4,5\n", "3:4", NO_UTF_8),
    ("postings.py", ENTRIES[:-8] + b"\n", "1:29", "there is no column 'amount'"),
    ("postings.py", b"transaction,account,amount\n", "1:27", "there is no column 'currency'"),
    ("postings.py", b"transaction,account,currency,amount,rate\n", "1:37", "an unknown column: 'rate'"),
    ("postings.py", ENTRIES + b"x,a,EUR,5,6\n", "2:11", SURPLUS),
    ("postings.py", ENTRIES + b'x,a,EUR,"5,6"\n', "2:9", NO_COMMA % "5,6"),
    ("postings.py", ENTRIES + b"x,a,EUR,5\nx,b,EUR,-4\ny,a,EUR,1\n", "3:9", "the EUR of 'x' sum to 100 of the smallest unit, not to 0"),
    ("postings.py", ENTRIES + b"x,a,EUR,5\nx,a,USD,-5\n", "2:9", "the EUR of 'x' sum to 500 of the smallest unit, not to 0"),
    ("postings.py", ENTRIES + b"x,a,EUR,0\ny,a,EUR,0\nx,a,EUR,0\n", "4:1", "the rows of transaction 'x' don't follow each other"),
    ("postings.py", ENTRIES + b"x,a,eur,5\n", "2:5", "no currency of three capital letters: 'eur'"),
    ("postings.py", ENTRIES + b"x,,EUR,5\n", "2:3", "no account"),
    ("postings.py", ENTRIES + b"x,a,JPY,5.5\n", "2:9", "more than 0 digits after the point: 5.5"),
    ("postings.py", ENTRIES + b",a,EUR,-10000000000000\n,a,EUR,-0.01\n", "3:8",
     "a-EUR would start with -1000000000000001, which is too small or too large"),
    ("picks.py", b"stok\ta\t5\n", "1:1", "none of stock, pick and receive: 'stok'"),
    ("picks.py", b"\n", "1:1", "none of stock, pick and receive: ''"),
    ("picks.py", b"stock\ta\t5\npick\ta\t5\n", "2:9", "there is no COUNT"),
    ("picks.py", b"stock\ta\t5\t6\n", "1:11", "a surplus field"),
    ("picks.py", b"stock\t\t5\n", "1:7", "an empty PART"),
    ("picks.py", b"pick\to\tstock\t1,5\n", "1:14", NO_NUMBER % "1,5"),
    ("picks.py", b"stock\ta\t-5\n", "1:9", NO_NUMBER % "-5"),
    ("picks.py", b"stock\ta\t5\nreceive\ta\t0\n", "2:11", "not within 1 to 1,000,000,000,000: 0"),
    ("picks.py", b"stock\ta\t1000000000000000\nstock\ta\t1\n", "2:9", "a would start with 1000000000000001, which is too small or too large"),
    ("picks.py", b"stock\tpacking\t5\n", "1:7", "the name packing is that of a queue"),
    ("picks.py", b"\xef\xbb\xbfstock\ta\t5\n", "1:1", MARK),
    ("picks.py", b"stock\ta\t5\nstock\tb\xff\t5\n", "2:8", NO_UTF_8),
    ("replay.py", b"1 POP\n2 PUSH\n", "2:7", "PUSH without its JOB"),
    ("replay.py", b"1 POP\n\n", "2:1", "no number with a command"),
    ("replay.py", b"1\n", "1:2", "no number with a command"),
    ("replay.py", b"1  POP  x\n", "1:9", "a surplus word after POP"),
    ("replay.py", b"1 PULL x\n", "1:3", NO_COMMAND % "PULL"),
    ("replay.py", b"1,5 POP\n", "1:1", NO_NUMBER % "1,5"),
    ("replay.py", b"0 POP\n", "1:1", "not within 1 to 1,000,000,000,000: 0"),
    ("replay.py", b"1000000000001 POP\n", "1:1", "not within 1 to 1,000,000,000,000: 1000000000001"),
    ("replay.py", b"\xef\xbb\xbf1 POP\n", "1:1", MARK),
    ("replay.py", b"1 POP\n2 PUSH \xc3\n", "2:8", NO_UTF_8),
)

# What a document has at most in the trials of limits, in place of the limits that there are.
FEW = {"objects": 1_000, "transactions": 10_000, "steps": 100_000}

# For each limit: a script with its options, the largest file that it takes, a line more, the column, and the limit.
LIMITS = (
    ("objects", ("postings.py",), PAYMENTS + b"".join(b",a%d,5\n" % n for n in range(1_000)), b",b,5\n", 2),
    ("objects", ("picks.py",), b"".join(b"stock\ta%d\t5\n" % n for n in range(998)), b"receive\tb\t1\n", 9),
    ("transactions", ("postings.py",), PAYMENTS + b"a,b,1\n" * 10_000, b"a,b,0\n", 5),
    ("transactions", ("picks.py",), b"pick\to\ta\t5\nreceive\ta\t5\n" * 5_000, b"pick\tp\ta\t5\n", 1),
    ("transactions", ("replay.py",), b"1 POP\n" * 10_000, b"1 POP\n", 1),
    ("steps", ("postings.py", "--covered", "a"), ENTRIES + b"x,a,EUR,-1\nx,b,EUR,1\n" * 50_000, b"x,a,EUR,-1\n", 9),
    ("steps", ("picks.py",), b"receive\ta\t1\n" * 99_999, b"receive\ta\t1\n", 11),
)

# Texts and their names, where it matters which; the page of the examples shows others.
NAMES = (
    ("n" * 128, "n" * 128),
    ("0F2B8C1E-9d4a-4c6b-8f1e-0a2b3c4d5e6f", "0F2B8C1E-9d4a-4c6b-8f1e-0a2b3c4d5e6f"),
    ("invoice of the year 2026, number 1", "invoice-of-the-year-2026-number-1-e54b6e61177e"),
    ("ann.smith+bank@example.org", "ann.smith+bank@example.org"),
    ("n" * 129, None),
    ("a~b", None),
    ("", None),
    ("äöü", None),
)


def made(words, text, **options):
    done = subprocess.run([sys.executable, "-B", *words], input=text, capture_output=True, cwd=EXAMPLES, **options)
    return done.stdout, done.returncode, done.stderr.decode()


def try_samples(program):
    """`pages` tries the reports of the documents, as of each example."""
    for sample, script, *options in SAMPLES:
        file = EXAMPLES / sample
        document = file.with_suffix(".json").read_bytes()
        program.compare(script, options, made([script, *options], file.read_bytes()), (document, 0, ""))
        program.compare(script, [sample], made([script, *options, sample], b""), (document, 0, ""))
        crlf = file.read_bytes().replace(b"\n", b"\r\n")
        program.compare(script, ["lines that end with CR LF"], made([script, *options], crlf), (document, 0, ""))
        program.compare("%s fits the schema" % sample, [], (Validator(SCHEMA).errors(json.loads(document)),), ([],))
        _, status, err = program.run(["check"], document)
        program.compare("%s is taken" % sample, ["check"], (None, status, err), (None, 0, b""))


def try_lengths(program):
    for script in sorted(EXAMPLES.glob("*.py")):
        count = len(script.read_text().splitlines())
        program.compare("%s has %d lines" % (script.name, count), [], (count <= MOST_LINES,), (True,))


def try_refused(program, folder):
    """From standard input, and the last row of each script from a file, which is named."""
    file = pathlib.Path(folder, "refused")
    for script, text, place, message in REFUSED:
        wanted = (b"", 1, "standard input:%s: %s\n" % (place, message))
        program.compare("%s of %.60r" % (script, text), [], made([script], text), wanted)
    for script, (text, place, message) in {script: row for script, *row in REFUSED}.items():
        file.write_bytes(text)
        wanted = (b"", 1, "%s:%s: %s\n" % (file, place, message))
        program.compare("%s of a file" % script, [text], made([script, file], b""), wanted)
        wanted = (b"", 1, "nothing: No such file or directory\n")
        program.compare("%s of no file" % script, [], made([script, "nothing"], b""), wanted)
    program.compare("an account that no row has", [], made(["postings.py", "--covered", "b"], ENTRIES + b"x,a,EUR,0\n"),
                    (b"", 1, "--covered: no row has the account 'b'\n"))
    program.compare("an account of payments", [], made(["postings.py", "--covered", "b"], PAYMENTS + b",b,5\n"),
                    (b"", 1, "--covered is for entries: of payments each account is covered\n"))


# Runs a script with other limits.
LIMITED = """
import json, runpy, sys, writing
limits = json.loads(sys.argv[1])
writing.MOST_BYTES = limits.pop("bytes", writing.MOST_BYTES)
writing.LIMITS.update(limits)
del sys.argv[:2]
runpy.run_path(sys.argv[0], run_name="__main__")
"""


def limited(limits, *words):
    """The words that run a script with these limits."""
    return ["-c", LIMITED, json.dumps(limits), *words]


def limit(what):
    """The number that the page of documents has for a limit."""
    rows = (ROOT / "docs" / "DOCUMENT.md").read_text().split("## Limits")[1]
    return re.search(r"^\| %s.*? \| ([0-9,]+)" % what, rows, re.M)[1]


def try_limits(program):
    """The largest file gives a document that is taken. One line more is refused with its place."""
    for what, words, text, more, column in LIMITS:
        words = limited(FEW, *words)
        out, status, err = made(words, text)
        program.compare("as many %s as there may be" % what, words, (None, status, err), (None, 0, ""))
        program.compare("as many %s as there may be" % what, ["check"], (program.run(["check"], out)[2],), (b"",))
        wanted = "standard input:%d:%d: more than %s %s in a document\n" % (
            text.count(b"\n") + 1, column, format(FEW[what], ","), what)
        program.compare("more %s than there may be" % what, words, made(words, text + more), (b"", 1, wanted))
    for sample, script, *options in SAMPLES:
        given = (EXAMPLES / sample).read_bytes()
        document = (EXAMPLES / sample).with_suffix(".json").read_bytes()
        count = document.count(b'"op"')
        for operations, size, what in (
                (count, len(document), None), (count - 1, len(document), "%d operations" % (count - 1)),
                (count, len(document) - 1, "%s bytes" % format(len(document) - 1, ","))):
            got = made(limited({"operations": operations, "bytes": size}, script, *options), given)
            place = re.match(r"standard input:%d:\d+: " % given.count(b"\n"), got[2])
            wanted = (b"", 1, "%smore than %s in a document\n" % (place and place[0], what)) if what else (document, 0, "")
            program.compare("%s, at most %d operations and %d bytes" % (sample, operations, size), [], got, wanted)
    shown = made(["-c", "import writing; print({**writing.LIMITS, 'bytes': writing.MOST_BYTES})"], b"")[0].decode()
    wanted = {what: int(limit({"steps": "ifs, "}.get(what, what)).replace(",", ""))
              for what in ("objects", "transactions", "operations", "steps", "bytes")}
    program.compare("the limits of documents", [], (shown,), ("%s\n" % wanted,))


def try_parts(program, folder):
    """A long log is cut into documents. After a fault, and where there is a file already, nothing is written."""
    lines = [b"%d PUSH j%d\n" % (number, number % 7) for number in range(1, 25_001)]
    chunks = [b"".join(lines[first:first + 10_000]) for first in range(0, len(lines), 10_000)]
    prefix = pathlib.Path(folder, "log")
    words = limited(FEW, "replay.py", "--parts", prefix)
    names = ["%s-%d.json" % (prefix, number) for number in (1, 2, 3)]
    program.compare("a log with a fault", [], made(words, b"".join(lines) + b"x POP\n"),
                    (b"", 1, "standard input:25001:1: no whole number: 'x'\n"))
    program.compare("a log with a fault", [], (sorted(pathlib.Path(folder).glob("*log*")),), ([],))
    program.compare("a long log", [], made(words, b"".join(lines)), ("".join(name + "\n" for name in names).encode(), 0, ""))
    for name, chunk in zip(names, chunks):
        document = pathlib.Path(name).read_bytes()
        program.compare(name, [], (document,), (made(["replay.py"], chunk)[0],))
        program.expect(name, ["check"], document, b"ok objects 5 transactions %d operations %d\n" % (
            chunk.count(b"\n"), 2 * chunk.count(b"\n")))
    for present in names[0], "%s-4.json" % prefix:
        pathlib.Path(names[1]).unlink(missing_ok=True)
        pathlib.Path(present).write_text("kept")
        program.compare("a part that is there", [], made(words, b"".join(lines)), (b"", 1, "%s: there is such a file already\n" % present))
        program.compare("a part that is there", [], (pathlib.Path(present).read_text(), pathlib.Path(names[1]).exists()), ("kept", False))
        pathlib.Path(present).unlink()
        pathlib.Path(names[2]).unlink(missing_ok=True)
    program.compare("a log without a line", [], made(words, b""), (names[0].encode() + b"\n", 0, ""))
    program.expect("a log without a line", ["check"], pathlib.Path(names[0]).read_bytes(), b"ok objects 5 transactions 0 operations 0\n")


def ends(program, name, document):
    """The numbers with which the objects of a document end."""
    out, status, err = program.run(["serial"], document)
    program.compare(name, ["serial"], (None, status, err), (None, 0, b""))
    return {line.split()[1]: line.split()[3] for line in out.decode().splitlines() if line.startswith("= ")}


def try_books(program):
    """A journal of 2,500 accounts in two currencies, with 12,000 entries: more objects and transactions than version 4 has."""
    sums = collections.Counter()
    for _, account, currency, cents in journal.postings(random.Random(1), 2_500, 12_000):
        sums["%s-%s" % (account, currency)] += cents
    document, status, err = made(["postings.py"], made(["journal.py"], b"")[0])
    program.compare("books of %d objects" % len(sums), [], (None, status, err), (None, 0, ""))
    program.compare("books of %d objects" % len(sums), [], (len(sums) > 1_000,), (True,))
    program.compare("books of %d objects" % len(sums), [],
                    (ends(program, "books", document),), ({name: str(sum) for name, sum in sums.items()},))
    out, status, err = program.run(["run"], document)
    program.compare("books, by rounds", ["run"], (out.splitlines()[-1], status, err), (b"rounds 1", 0, b""))


def try_long_log(program):
    """A log of 30,000 commands, which version 4 would cut into three."""
    chance = random.Random(6)
    log = "".join("%d SET k%d v%d\n" % (number, chance.randrange(1_700), chance.randrange(50)) for number in range(1, 30_001))
    document, status, err = made(["replay.py"], log.encode())
    program.compare("a log of 30,000 commands", [], (None, status, err), (None, 0, ""))
    program.expect("a log of 30,000 commands", ["check"], document, b"ok objects 5 transactions 30000 operations 60000\n")


def shown_names():
    section = (EXAMPLES / "README.md").read_text().split("## Names that don't fit")[1]
    return tuple(re.findall(r"^\| `(.+?)` \| `(.+?)` \|", section, re.M))


def try_names(program):
    rows = NAMES + shown_names()
    program.compare("names that the page shows", [], (len(rows) - len(NAMES),), (4,))
    out, status, err = made(["writing.py"], "".join(text + "\n" for text, _ in rows).encode())
    names = [line.split(" ")[0] for line in out.decode().splitlines()]
    wanted = [name or given for (_, name), given in zip(rows, names)]
    program.compare("names of texts", [], (names, status, err), (wanted, 0, ""))
    for (text, _), name in zip(rows, names):
        program.compare("the name of %s" % text, [], (re.fullmatch("[A-Za-z0-9_.:/@+#%-]{1,128}", name) is not None,), (True,))
    program.compare("names that differ", [], (len(set(names)),), (len(rows),))
    name = names[NAMES.index(("äöü", None))]
    program.compare("two texts of one name", [], made(["writing.py"], "äöü\näöü\n{}\n".format(name).encode()),
                    (b"", 1, "standard input:3:1: 'äöü' and '{0}' both get the name {0}\n".format(name)))


def try_all(program):
    with tempfile.TemporaryDirectory() as folder:
        try_samples(program)
        try_lengths(program)
        try_refused(program, folder)
        try_limits(program)
        try_parts(program, folder)
        try_books(program)
        try_long_log(program)
        try_names(program)
