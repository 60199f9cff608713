"""`run --progress`: what standard error shows, and that nothing else changes."""

import json
import re
import subprocess

SHOWN = re.compile(rb"(?:\rround \d+, \d+ of \d+ transactions)*\n|")


def withdrawals(count):
    """Each waits for all before it, so there are as many rounds."""
    return json.dumps({"ordtx": 1, "objects": [{"name": "a", "kind": "account", "start": 10**6}],
                       "transactions": [[{"op": ["a", "withdraw", 1]}]] * count}).encode()


def try_rounds(program, count, lines):
    document = withdrawals(count)
    report = program.run(["run"], document)[0]
    for words in (["run", "--progress"], ["run", "--workers", "64", "--cut", "1", "--progress"]):
        out, status, err = program.run(words, document)
        program.compare("%d rounds" % count, words, (out, status), (report, 0))
        shown = err.split(b"\r")
        program.compare("what is shown of %d rounds" % count, words, (SHOWN.fullmatch(err) is not None, len(shown) - 1), (True, lines))
        last = b"round %d, %d of %d transactions\n" % (count, count, count) if count else b""
        program.compare("the last of %d rounds" % count, words, (shown[-1],), (last,))


def try_case(program, file):
    document, report = file.read_bytes(), file.with_suffix(".report").read_bytes()
    for words in (["run", "--progress"], ["run", "--progress", "--audit"]):
        out, status, err = program.run(words, document)
        program.compare(file.stem, words, (out[:len(report)], status, SHOWN.fullmatch(err) is not None), (report, 0, True))


def try_closed(program):
    """A closed or full standard error changes nothing."""
    document = withdrawals(20)
    report = program.run(["run"], document)[0]
    done = subprocess.run(["sh", "-c", '"$0" run --progress 2>&-', program.path], input=document, stdout=subprocess.PIPE)
    program.compare("a closed standard error", ["run", "--progress"], (done.stdout, done.returncode), (report, 0))
    with open("/dev/full", "wb") as full:
        done = subprocess.run([program.path, "run", "--progress"], input=document, stdout=subprocess.PIPE, stderr=full)
    program.compare("a full standard error", ["run", "--progress"], (done.stdout, done.returncode), (report, 0))


def try_all(program, cases):
    for count, lines in ((0, 0), (1, 1), (99, 99), (100, 100), (250, 100)):
        try_rounds(program, count, lines)
    for file in sorted(cases.glob("*.json")):
        if file.with_suffix(".report").exists():
            try_case(program, file)
    try_closed(program)
    program.expect("a refused document", ["run", "--progress"], b"{", b"", 1, b"fault 1 transaction 0\n")
