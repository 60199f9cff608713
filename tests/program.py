"""Runs the program, and keeps count of what it did otherwise than it should."""

import os
import re
import subprocess

WORKERS = (1, 2, 64)
CUTS = (1, 16, 1000)
WORDS = re.compile(rb"[^\n]+\n")
PLANS = [
    ["--workers", str(workers), "--cut", str(cut)]
    for workers in WORKERS
    for cut in CUTS
]


class Program:
    def __init__(self, path):
        self.path = path
        self.passed = 0
        self.failed = 0

    def run(self, words, document=b"", **options):
        """Standard output, the status and standard error of one run."""
        done = subprocess.run(
            [self.path, *words], input=document, stdout=subprocess.PIPE,
            stderr=subprocess.PIPE, timeout=300, **options)
        return done.stdout, done.returncode, done.stderr

    def expect(self, name, words, document, stdout=b"", status=0, stderr=b""):
        """Runs it; None stands for any bytes."""
        self.compare(name, words, self.run(words, document),
                     (stdout, status, stderr))

    def compare(self, name, words, got, wanted):
        for part, seen, want in zip(("stdout", "status", "stderr"), got, wanted):
            if want is not None and seen != want:
                self.failed += 1
                print("FAILED %s: %s, %s" % (name, " ".join(map(os.fsdecode, words)), part))
                print("  wanted %.300r" % (want,))
                print("  got    %.300r" % (seen,))
                return
        self.passed += 1

    def expect_fault(self, name, words, document, number, transaction):
        line = b"fault %d transaction %d\n" % (number, transaction)
        self.expect(name, words, document, b"", 1, line)

    def expect_fault_everywhere(self, name, document, number, transaction):
        for command in ("run", "serial", "check"):
            self.expect_fault(name, [command], document, number, transaction)

    def expect_located(self, name, document, line):
        """`locate` prints this line of a fault, and one that says in words what is wrong."""
        out, status, err = self.run(["locate"], document)
        first, end, words = out.partition(b"\n")
        self.compare(name, ["locate"], (first + end, status, err), (line, 1, b""))
        self.compare(name + " has words", ["locate"], (bool(WORDS.fullmatch(words)),), (True,))

    def expect_report(self, name, document, report, plans=PLANS):
        """`run` with each plan, and `serial`."""
        self.expect(name, ["run"], document, report)
        for plan in plans:
            self.expect(name, ["run", *plan], document, report)
        self.expect(name, ["serial"], document, without_rounds(report))


def without_rounds(report):
    """A report without its last line."""
    return report[:report.rindex(b"rounds ")]
