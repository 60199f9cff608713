#!/usr/bin/env python3
"""Makes a document of a command log: `replay.py replay.log > replay.json`.

A line has its number in the log, a command of `COMMANDS`, and the command's words. Each is a transaction, in the order of the
lines. A lock that is taken aborts for the reason `locked`, and a pop of nothing for the reason `empty`. Neither moves the
sequence on. With `--parts PREFIX` a log of any length is cut into `PREFIX-1.json`, `PREFIX-2.json` .., to be run one after
the other.
"""

import itertools
import os
import tempfile

from reading import Fault, convert, split, whole
from writing import LIMITS, MOST_AMOUNT, Document, Names

# The words of each command, and its operation. The last two say which reply aborts it, and for which reason.
COMMANDS = {
    "SET": (("KEY", "VALUE"), ("config", "put"), None, None),
    "UNSET": (("KEY",), ("config", "unbind"), None, None),
    "LOCK": (("LOCK", "OWNER"), ("locks", "bind"), "taken", "locked"),
    "UNLOCK": (("LOCK",), ("locks", "unbind"), None, None),
    "PUSH": (("JOB",), ("jobs", "enq"), None, None),
    "POP": ((), ("jobs", "deq"), "empty", "empty"),
    "JOIN": (("MEMBER",), ("members", "insert"), None, None),
    "LEAVE": (("MEMBER",), ("members", "remove"), None, None),
}
KINDS = {"config": "directory", "locks": "directory", "jobs": "queue", "members": "set"}


def steps(line, names):
    """The steps of the transaction of a line."""
    found, end = split(line, r"\S+")
    if len(found) < 2:
        raise Fault(end, "no number with a command")
    number, command, *words = found
    sequence = whole(number, MOST_AMOUNT)
    if command.text not in COMMANDS:
        raise Fault(command, "none of %s: %r" % (", ".join(COMMANDS), command.text))
    wanted, target, refused, reason = COMMANDS[command.text]
    if len(words) > len(wanted):
        raise Fault(words[len(wanted)], "a surplus word after %s" % command.text)
    if len(words) < len(wanted):
        raise Fault(end, "%s without its %s" % (command.text, wanted[len(words)]))
    taken = [{"op": ["sequence", "raise", sequence]}, {"op": [*target, *map(names.of, words)]}]
    if refused:
        taken[1]["as"] = "reply"
        taken.append({"if": "reply", "is": refused, "then": [{"abort": reason}]})
    return taken


def document_of(lines, names):
    document = Document()
    for name, kind in KINDS.items():
        document.object(None, name, kind, [])
    document.object(None, "sequence", "max", 0)
    for line in lines:
        document.add(line, document.begin(line), *steps(line, names))
    return document


def write_parts(lines, prefix):
    """Each part has as many lines as a document has transactions, by which no other limit is reached. All parts are made before
    one gets its name. No file that is there is written over."""
    names, drafts = Names(), []
    with tempfile.TemporaryDirectory(dir=os.path.dirname(prefix) or ".", prefix=".replay-") as folder:
        for line in itertools.chain([next(lines, None)], lines):
            rest = itertools.islice(lines, LIMITS["transactions"] - 1)
            document = document_of(itertools.chain([line] if line else [], rest), names)
            drafts.append(os.path.join(folder, str(len(drafts))))
            with open(drafts[-1], "x") as file:
                file.write(document.text())
        parts = ["%s-%d.json" % (prefix, number) for number in range(1, len(drafts) + 2)]
        for part in filter(os.path.lexists, parts):
            raise FileExistsError(0, "there is such a file already", part)
        for draft, part in zip(drafts, parts):
            os.rename(draft, part)
    return "".join(part + "\n" for part in parts[:-1])


def made_of(lines, chosen):
    return document_of(lines, Names()).text() if chosen.parts is None else write_parts(lines, chosen.parts)


if __name__ == "__main__":
    convert(made_of, ("--parts", {"metavar": "PREFIX", "help": "cut the log into documents, print their names"}))
