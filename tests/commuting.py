"""The tables of `docs/DOCUMENT.md` on which operations commute: two transactions share a round where they say so."""

import functools
import itertools
import json
import pathlib
import re

import randoms

PAGE = pathlib.Path(__file__).resolve().parent.parent / "docs" / "DOCUMENT.md"
SPAN = re.compile(r"`([a-z]+)`")

# For each table the kind, and values to start with.
TABLES = (
    ("Account", "account", (0, 5)),
    ("Counter", "counter", (0, -2)),
    ("Set", "set", ([], ["a"], ["a", "b"])),
    ("Queue", "queue", ([], ["a"], ["b", "a"], ["a", "a"])),
    ("Directory", "directory", ([], [["k", "v"]], [["k", "w"], ["l", "v"]])),
    ("Maximum register", "max", (0, 5)),
)


def operations_of(kind):
    """The kind's operations, each with all arguments that it is tried with."""
    items = ("kl", "vw") if kind == "directory" else ("ab",)
    for verb, _, arguments, _ in randoms.KINDS[kind][2]:
        values = [(3, 5, 9)] if arguments == "N" else items[:len(arguments)]
        for given in itertools.product(*values):
            yield (verb, *given)


def cells(line):
    return [cell.strip() for cell in line.strip().strip("|").split("|")]


@functools.cache
def table_of(kind):
    """The rows of a kind's table, each by its heading."""
    title = next(title for title, one, _ in TABLES if one == kind)
    section = PAGE.read_text().split("### %s: who commutes\n" % title)[1].split("\n## ")[0].split("\n### ")[0]
    lines = [cells(line) for line in section.splitlines() if line.startswith("|")]
    columns = lines[0][1:]
    return {row[0]: dict(zip(columns, row[1:])) for row in lines[2:]}


@functools.cache
def is_under(heading, operation, reply):
    """Whether a heading, as "`unbind`, `lookup` = `missing`", speaks of the operation with this reply."""
    wanted = None
    for part in reversed(heading.split(", ")):
        words = SPAN.findall(part)
        if "=" in part:
            wanted = words[1] if len(words) > 1 else None
        if words[0] == operation[0]:
            return wanted in (None, reply.split()[0])
    return False


def says(cell, operations, replies):
    """What a cell says of two operations; None where it says that no value allows both."""
    if cell.startswith(("yes", "no")):
        return cell.startswith("yes")
    if cell == "only of the same item":
        return operations[0][-1] == operations[1][-1]
    if cell == "only of the item that was found":
        return any(one[-1] == reply.split()[-1] for one, reply in zip(operations, reversed(replies)))
    if cell == "only where A is at most N":
        numbers = dict(zip((one[0] for one in operations), zip(operations, replies)))
        return int(numbers["raise"][0][1]) <= int(numbers["top"][1])
    return None


def of_one_item(kind, operations):
    """Whether the table speaks of them: operations on different items or keys commute."""
    items = {one[1] for one in operations if len(one) > 1}
    return kind not in ("set", "directory") or len(items) < 2


def commute(kind, one, other):
    """What the page says of two operations on one object, each with its reply; None where no value allows both."""
    operations, replies = zip(one, other)
    if not of_one_item(kind, operations):
        return True
    table = table_of(kind)
    row = next(table[heading] for heading in table if is_under(heading, *one))
    return says(next(row[heading] for heading in row if is_under(heading, *other)), operations, replies)


def report_of(program, kind, start, *transactions):
    document = {"ordtx": 4, "objects": [{"name": "x", "kind": kind, "start": start}],
                "transactions": [[{"op": ["x", *operation]}] for operation in transactions]}
    out, _, _ = program.run(["run"], json.dumps(document).encode())
    return out.decode().splitlines()


def try_table(program, title, kind, starts):
    operations = list(operations_of(kind))
    for start in starts:
        replies = [report_of(program, kind, start, one)[1].split(" = ")[1] for one in operations]
        known = list(zip(operations, replies))
        for first, reply in known:
            for second, other in known:
                said = commute(kind, (first, reply), (second, other))
                program.compare(
                    "%s at %s, %s and %s" % (title, start, first, second), [],
                    (report_of(program, kind, start, first, second)[-1],),
                    ("rounds %s" % {True: 1, False: 2}.get(said),))


def try_all(program):
    for table in TABLES:
        try_table(program, *table)
