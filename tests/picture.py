#!/usr/bin/env python3
"""The picture of rounds, from `run --audit` of an example: `tests/picture.py PROGRAM > docs/rounds.svg`.

A document of the first N transactions has as many rounds as there are up to N's commit. Whether a later one was made again
after a round is seen where it follows the transactions that were committed by then: it has one run more.
"""

import json
import pathlib
import re
import sys

from program import Program

ROOT = pathlib.Path(__file__).resolve().parent.parent
EXAMPLE, PICTURE = ROOT / "examples" / "inventory.json", ROOT / "docs" / "rounds.svg"
LEFT, TOP, WIDTH, HEIGHT, BOX = 250, 60, 166, 46, 30
FILLS = {"run": "#9ecae8", "run again": "#f5b971", "kept": "#e6e6e6"}
MIDDLE = ' text-anchor="middle"'


def audited(program, document, transactions):
    """The number of rounds, and how often each of these transactions was run."""
    report = program.run(["run", "--audit"], json.dumps(dict(document, transactions=transactions)).encode())[0].decode()
    rounds, *counts = report[report.rindex("rounds "):].splitlines()
    return int(rounds.split()[1]), [int(line.split()[2]) for line in counts]


def rows(program, document):
    """For each transaction what became of its run in each round, up to the one that committed it."""
    all_of = document["transactions"]
    commits = [audited(program, document, all_of[:number + 1])[0] for number in range(len(all_of))]
    found = []
    for transaction, commit in zip(all_of, commits):
        before = [sum(other <= done for other in commits) for done in range(commit)]
        counts = [audited(program, document, all_of[:count] + [transaction])[1][-1] for count in before]
        again = [later > earlier for earlier, later in zip(counts, counts[1:])]
        found.append(["run"] + ["run again" if one else "kept" for one in again])
    assert [len(row) - row.count("kept") for row in found] == audited(program, document, all_of)[1]
    return found


def objects_of(transaction):
    return ", ".join(dict.fromkeys(re.findall(r'"op": \["([^"]+)"', json.dumps(transaction))))


def text(x, y, size, color, said, more=""):
    return '<text x="%d" y="%d" font-size="%d" fill="%s"%s>%s</text>' % (x, y, size, color, more, said)


def box(x, y, done, last):
    edge = ' stroke="#222" stroke-width="2"' if last else ""
    return ['<rect x="%d" y="%d" width="%d" height="%d" rx="5" fill="%s"%s/>' % (x, y, WIDTH - 14, BOX, FILLS[done], edge),
            text(x + WIDTH // 2 - 7, y + 19, 11, "#222", done + (", committed" if last else ""), MIDDLE)]


def picture(program):
    document = json.loads(EXAMPLE.read_text())
    found = rows(program, document)
    columns, bottom = [LEFT + WIDTH * number for number in range(max(map(len, found)))], TOP + HEIGHT * len(found)
    lines = ['<svg xmlns="http://www.w3.org/2000/svg" viewBox="0 0 %d %d" font-family="sans-serif">' % (columns[-1] + WIDTH, bottom),
             "<title>The rounds of examples/%s</title>" % EXAMPLE.name, '<rect width="100%" height="100%" fill="#fff"/>']
    for number, x in enumerate(columns, 1):
        lines += [text(x + WIDTH // 2 - 7, 40, 14, "#222", "round %d" % number, MIDDLE),
                  '<path d="M%d 24V%d" stroke="#bbb" stroke-dasharray="3 3"/>' % (x - 7, bottom - 10)]
    for number, (row, transaction) in enumerate(zip(found, document["transactions"])):
        y = TOP + HEIGHT * number
        lines += [text(12, y + 13, 13, "#222", "transaction %d" % (number + 1)),
                  text(12, y + 28, 10, "#666", objects_of(transaction))]
        for x, done, later in zip(columns, row, row[1:] + [None]):
            lines += box(x, y, done, later is None)
    return "\n".join([*lines, "</svg>", ""])


def try_all(program):
    program.compare("the picture of rounds", [], (picture(program),), (PICTURE.read_text(),))


if __name__ == "__main__":
    print(picture(Program(sys.argv[1])), end="")
