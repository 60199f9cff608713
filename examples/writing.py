#!/usr/bin/env python3
"""Names for any texts, and documents within their limits.

Alone, `writing.py [FILE]` prints the name of each line, and the line.
"""

import collections
import hashlib
import json
import re

from reading import Fault, convert

NAME = re.compile(r"[A-Za-z0-9_.:/@+#%-]{1,128}")
OTHERS = re.compile(r"[^A-Za-z0-9_.:/@+#%-]+")

# What a document has at most; `steps` are those that are no operations, and children.
LIMITS = {"objects": 1_000_000, "transactions": 1_000_000, "operations": 9_000_000, "steps": 9_000_000}
MOST_BYTES, MOST_START, MOST_AMOUNT = 536_870_912, 10 ** 15, 10 ** 12


class Names:
    """Gives each text a name: the same in each batch, and another for another text."""

    def __init__(self):
        self.names, self.texts = {}, {}

    def of(self, field):
        if field.text not in self.names:
            name = text = field.text
            if not NAME.fullmatch(text):
                shown, digest = OTHERS.sub("-", text), hashlib.sha256(text.encode()).hexdigest()[:12]
                name = "%s-%s" % (shown if len(shown) <= 115 else shown[:57] + "-" + shown[-57:], digest)
            if self.texts.setdefault(name, text) != text:
                raise Fault(field, "%r and %r both get the name %s" % (self.texts[name], text, name))
            self.names[field.text] = name
        return self.names[field.text]


def steps_in(block):
    """The steps of a block and of all blocks in it, and children, in the order in which they are read."""
    for step in block:
        yield step
        if "op" not in step:
            for part in ("then", "else", "parallel", "sub"):
                yield from steps_in(step.get(part, ()))
            for _, handler in sorted(step.get("handlers", {}).items()):
                yield from steps_in(handler)
            yield from steps_in(step.get("handler", ()))


class Document:
    """Objects and transactions within the limits. What is too much is a fault of the field that asks for it."""

    def __init__(self):
        self.objects, self.transactions, self.counts = {}, [], collections.Counter()
        self.size = len(self.text())

    def count(self, what, field):
        self.counts[what] += 1
        if self.counts[what] > LIMITS[what]:
            raise Fault(field, "more than %s %s in a document" % (format(LIMITS[what], ","), what))

    def grow(self, size, field):
        self.size += size
        if self.size > MOST_BYTES:
            raise Fault(field, "more than %s bytes in a document" % format(MOST_BYTES, ","))

    def object(self, field, name, kind, start):
        """The object of this name, which is made where there is none."""
        if name not in self.objects:
            self.count("objects", field)
            one = {"name": name, "kind": kind, "start": start}
            self.grow(len(json.dumps(one)) + 4 * bool(self.objects), field)
            self.objects[name] = one
        if self.objects[name]["kind"] != kind:
            raise Fault(field, "the name %s is that of a %s" % (name, self.objects[name]["kind"]))
        return self.objects[name]

    def open(self, field, one, amount):
        """An object starts with so much more."""
        start = one["start"] + amount
        if not (-MOST_START if one["kind"] == "counter" else 0) <= start <= MOST_START:
            raise Fault(field, "%s would start with %d, which is too small or too large" % (one["name"], start))
        self.grow(len(str(start)) - len(str(one["start"])), field)
        one["start"] = start

    def begin(self, field):
        """A new transaction, which is empty."""
        self.count("transactions", field)
        self.grow(2 + 4 * bool(self.transactions), field)
        self.transactions.append([])
        return self.transactions[-1]

    def add(self, field, block, *steps):
        """Adds steps to a block of the document, or to one in its last step."""
        for step in steps_in(steps):
            self.count("operations" if "op" in step else "steps", field)
        for step in steps:
            self.grow(len(json.dumps(step)) + 2 * bool(block), field)
            block.append(step)

    def text(self):
        """A line for each object and each transaction."""
        lists = [",\n  ".join(map(json.dumps, each)) for each in (self.objects.values(), self.transactions)]
        return '{"ordtx": 5,\n "objects": [\n  %s],\n "transactions": [\n  %s]}\n' % tuple(lists)


if __name__ == "__main__":
    names = Names()
    convert(lambda lines, _: "".join("%s %s\n" % (names.of(line), line.text) for line in lines))
