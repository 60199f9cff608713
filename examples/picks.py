#!/usr/bin/env python3
"""Makes a document of a pick list: `picks.py picks.tsv > picks.json`.

The lines are `stock PART COUNT`, `pick ORDER PART COUNT` and `receive PART COUNT`, with tabs between. Lines of one order that
follow each other are one transaction. So are deliveries that follow each other. An order whose parts aren't all there takes
none of them: it aborts for the reason `short`, and its handler puts it among the backorders.
"""

import itertools

from reading import Fault, convert, split, whole
from writing import MOST_AMOUNT, MOST_START, Document, Names

FIELDS = {"stock": ("PART", "COUNT"), "pick": ("ORDER", "PART", "COUNT"), "receive": ("PART", "COUNT")}


def fields(line):
    """The fields of a line, all of which its first word asks for."""
    found, end = split(line, r"(?:^|(?<=\t))[^\t]*")
    wanted = FIELDS.get(found[0].text)
    if wanted is None:
        raise Fault(found[0], "none of stock, pick and receive: %r" % found[0].text)
    if len(found) > len(wanted) + 1:
        raise Fault(found[len(wanted) + 1], "a surplus field")
    if len(found) <= len(wanted):
        raise Fault(end, "there is no %s" % wanted[len(found) - 1])
    for field, name in zip(found[1:], wanted):
        if not field.text:
            raise Fault(field, "an empty %s" % name)
    return found


def picked(document, names, group):
    steps = []
    for number, (word, order, part, count) in enumerate(group, 1):
        if number == 1:
            block, name = document.begin(word), names.of(order)
            document.add(order, block, {"sub": steps, "handlers": {"short": [{"op": ["backorders", "insert", name]}]}})
        stock, label = document.object(part, names.of(part), "account", 0)["name"], "part-%d" % number
        document.add(count, steps, {"op": [stock, "withdraw", whole(count, MOST_AMOUNT)], "as": label},
                     {"if": label, "is": "no", "then": [{"abort": "short"}]})
    document.add(order, steps, {"op": ["packing", "enq", name]})


def received(document, names, group):
    children = []
    for number, (word, part, count) in enumerate(group, 1):
        if number == 1:
            document.add(word, document.begin(word), {"parallel": children})
        stock = document.object(part, names.of(part), "account", 0)["name"]
        document.add(count, children, {"sub": [{"op": [stock, "deposit", whole(count, MOST_AMOUNT)]}]})


def stocked(document, names, group):
    for _, part, count in group:
        document.open(count, document.object(part, names.of(part), "account", 0), whole(count, MOST_START))


MADE = {"stock": stocked, "pick": picked, "receive": received}


def made_of(lines, _):
    document, names = Document(), Names()
    document.object(None, "packing", "queue", [])
    document.object(None, "backorders", "set", [])
    for (word, *_), group in itertools.groupby(map(fields, lines), lambda found: [field.text for field in found[:-2]]):
        MADE[word](document, names, group)
    return document.text()


if __name__ == "__main__":
    convert(made_of)
