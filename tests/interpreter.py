"""A simple and slow interpreter of documents, written from the page of documents alone.

It knows nothing of the program but `docs/DOCUMENT.md`, and takes documents that have no fault. A value is a number, a frozenset,
a tuple or a dict, and is never changed. A reply is a list of words, as `["got", "x"]`, or of one number. What an operation does
is in the table `OPERATIONS`. Which ones commute is read from the tables of the page, by `commuting.py`.
"""

import collections
import json

import commuting

MOST_OF_AMOUNT, MOST_OF_START = 10 ** 12, 10 ** 15
REFUSALS = ("no", "present", "absent", "empty", "taken", "missing")

# For each operation the value afterwards and the words of its reply, from the value and the arguments.
OPERATIONS = {
    "deposit": lambda value, amount: (value + amount, "ok"),
    "withdraw": lambda value, amount: (value - amount, "ok") if value >= amount else (value, "no"),
    "balance": lambda value: (value, value),
    "add": lambda value, amount: (value + amount, "ok"),
    "sub": lambda value, amount: (value - amount, "ok"),
    "read": lambda value: (value, value),
    "insert": lambda value, item: (value, "present") if item in value else (value | {item}, "added"),
    "remove": lambda value, item: (value - {item}, "removed") if item in value else (value, "absent"),
    "has": lambda value, item: (value, "yes" if item in value else "no"),
    "size": lambda value: (value, len(value)),
    "enq": lambda value, item: ((*value, item), "ok"),
    "deq": lambda value: (value[1:], "got", value[0]) if value else (value, "empty"),
    "length": lambda value: (value, len(value)),
    "bind": lambda value, key, item: (value, "taken") if key in value else ({**value, key: item}, "bound"),
    "put": lambda value, key, item: ({**value, key: item}, "ok"),
    "unbind": lambda value, key: (
        ({other: value[other] for other in value if other != key}, "gone") if key in value else (value, "missing")),
    "lookup": lambda value, key: (value, "found", value[key]) if key in value else (value, "missing"),
    "raise": lambda value, amount: (max(value, amount), "ok"),
    "top": lambda value: (value, value),
}
# What a start is made to, and how a value is shown, where it is no number.
VALUES = {"set": frozenset, "queue": tuple, "directory": dict}
SHOWN = {"set": "{%s}", "queue": "[%s]", "directory": "{%s}"}


def line(*words):
    """The words of a line; what is None is left out."""
    return " ".join(str(word) for word in words if word is not None)


class Abort(Exception):
    """An abort on its way to the innermost subaction around it, or to the transaction."""

    def __init__(self, reason):
        super().__init__()
        self.reason = reason


class Entry(collections.namedtuple("Entry", ("path", "target", "call", "reply"))):
    """An operation that was performed: its path, its object, the operation with its arguments, and the reply's text."""

    def __str__(self):
        return line(self.path, self.target, *self.call, "=", self.reply)


class Run:
    """One run of a transaction: its lines, the operations that it performed, those that it leaves, and the values afterwards."""

    def __init__(self, number, block, values):
        self.values, self.lines, self.performed, self.left = dict(values), [], [], []
        self.attempt("T %d" % number, block, number, {})

    def attempt(self, head, block, path, labels):
        """Runs a block, and takes back what it did where it aborts. Returns the abort, or None."""
        values, left, place, abort = dict(self.values), len(self.left), len(self.lines), None
        try:
            self.block(block, path, labels)
        except Abort as caught:
            abort = caught
            self.values = values
            del self.left[left:]
        self.lines.insert(place, line(head, "aborted", abort.reason) if abort else line(head, "committed"))
        return abort

    def block(self, steps, path, labels):
        """Runs the steps. `labels` has the replies and outcomes that are seen; those of the steps are seen in the block alone."""
        labels = dict(labels)
        for number, step in enumerate(steps, 1):
            member = next(member for member in self.STEPS if member in step)
            self.STEPS[member](self, step, "%s.%d" % (path, number), labels)

    def abort(self, step, path, _):
        reason = None if step["abort"] is True else step["abort"]
        self.lines.append(line("A", path, reason))
        raise Abort(reason)

    def operation(self, step, path, labels):
        target, verb, *words = step["op"]
        arguments = [given(labels[word["from"]]) if isinstance(word, dict) else word for word in words]
        if None in arguments:
            self.abort({"abort": step.get("else", True)}, path, labels)
        self.values[target], *reply = OPERATIONS[verb](self.values[target], *arguments)
        entry = Entry(path, target, (verb, *arguments), line(*reply))
        self.performed.append(entry)
        self.left.append(entry)
        self.lines.append("O %s" % (entry,))
        if "else" in step and reply[0] in REFUSALS:
            self.abort({"abort": step["else"]}, path, labels)
        if "as" in step:
            labels[step["as"]] = reply

    def condition(self, step, path, labels):
        holds = is_so(step, labels[step["if"]])
        self.lines.append(line("I", path, "then" if holds else "else"))
        self.block(step["then"] if holds else step.get("else", ()), "%s.%s" % (path, "t" if holds else "e"), labels)

    def subaction(self, step, path, labels, after=None):
        """Runs a subaction whose blocks see `labels`. Its own label goes into `after`, which is `labels` if left out."""
        abort = self.attempt("S " + path, step["sub"], path + ".b", labels)
        if abort and abort.reason in step.get("handlers", ()):
            self.block(step["handlers"][abort.reason], "%s.h:%s" % (path, abort.reason), labels)
        elif abort and "handler" in step:
            self.block(step["handler"], path + ".h", labels)
        elif abort and "handlers" in step:
            raise abort
        if "as" in step:
            (labels if after is None else after)[step["as"]] = ["aborted" if abort else "committed"]

    def parallel(self, step, path, labels):
        """Runs the children in their order. None of them sees another's label."""
        after = {}
        for number, child in enumerate(step["parallel"], 1):
            self.subaction(child, "%s.%d" % (path, number), labels, after)
        labels.update(after)

    # The sorts of steps, each by the member that no other sort has.
    STEPS = {"op": operation, "if": condition, "sub": subaction, "abort": abort, "parallel": parallel}


def given(reply):
    """What a label with this reply gives as an argument, or None."""
    if isinstance(reply[0], int):
        return reply[0] if 1 <= reply[0] <= MOST_OF_AMOUNT else None
    return reply[1] if len(reply) > 1 else None


def is_so(step, reply):
    """Whether the test of an `if` holds of a reply or an outcome."""
    if "atleast" in step:
        return reply[0] >= step["atleast"]
    return reply[1:] == [step["item"]] if "item" in step else reply[0] == step["is"]


def starts(document):
    return {one["name"]: VALUES.get(one["kind"], int)(one["start"]) for one in document["objects"]}


def serial(document):
    """The lines of the transactions, one after the other, and the values at the end."""
    values, lines = starts(document), []
    for number, block in enumerate(document["transactions"], 1):
        run = Run(number, block, values)
        values, lines = run.values, lines + run.lines
    return lines, values


def blocks_of(step):
    """The blocks of a step in reading order; the children of a parallel step are steps of one."""
    handlers = step.get("handlers", {})
    branches = [step["then"], step.get("else", [])] if "if" in step else []
    return [*branches, step.get("sub", []), *(handlers[reason] for reason in sorted(handlers)), step.get("handler", []),
            step.get("parallel", [])]


def items_of(block):
    """The items that a block names, in reading order."""
    for step in block:
        yield from (word for word in step.get("op", ())[2:] if isinstance(word, str))
        if "item" in step:
            yield step["item"]
        for inner in blocks_of(step):
            yield from items_of(inner)


def first_places(document):
    """For each item of a document the place of its first appearance."""
    found = []
    for one in document["objects"]:
        for entry in one["start"] if one["kind"] in VALUES else ():
            found += entry if isinstance(entry, list) else [entry]
    for block in document["transactions"]:
        found += items_of(block)
    return {item: place for place, item in enumerate(dict.fromkeys(found))}


def entries_of(kind, value, places):
    """The entries of a value in the order of the report: items, or pairs of a directory."""
    if kind == "queue":
        return list(value)
    entries = sorted(value, key=places.get)
    return [[key, value[key]] for key in entries] if kind == "directory" else entries


def bound(key, item):
    """An entry of a directory; no name has `=`."""
    return ("=" if ":" in key + item else ":").join((key, item))


def ends(document, values):
    """The lines of the objects at the end."""
    places = first_places(document)
    for one in document["objects"]:
        kind, value = one["kind"], values[one["name"]]
        if kind in VALUES:
            entries = entries_of(kind, value, places)
            value = SHOWN[kind] % " ".join(bound(*entry) if kind == "directory" else entry for entry in entries)
        yield line("=", one["name"], kind, value)


def report(document):
    """The lines that `serial` prints."""
    lines, values = serial(document)
    return [*lines, *ends(document, values)]


def carried(document):
    """The text that `carry` prints, or None where an object ends as none may start. It doesn't count entries."""
    (_, values), places, rows = serial(document), first_places(document), []
    for one in document["objects"]:
        start = values[one["name"]]
        if one["kind"] in VALUES:
            start = entries_of(one["kind"], start, places)
        elif abs(start) > MOST_OF_START:
            return None
        rows.append(json.dumps({"name": one["name"], "kind": one["kind"], "start": start}))
    return '{"ordtx": %d,\n"objects": [\n%s\n],\n"transactions": [\n]}\n' % (max(4, document["ordtx"]), ",\n".join(rows))


def first_conflict(kinds, entries, committed):
    """The first operation that doesn't commute with all that are committed, and the earliest with which it doesn't; or None."""
    for entry in entries:
        for earlier in committed:
            if entry.target == earlier.target and commuting.commute(kinds[entry.target], entry[2:], earlier[2:]) is False:
                return entry, earlier
    return None


def rounds(document):
    """How many rounds the transactions take, how often each of them is run, and the lines of `--why`."""
    kinds, values = {one["name"]: one["kind"] for one in document["objects"]}, starts(document)
    waiting, runs, counts, why, count = dict(enumerate(document["transactions"], 1)), {}, collections.Counter(), [], 0
    while waiting:
        count += 1
        made = {number: Run(number, waiting[number], values) for number in waiting if number not in runs}
        counts.update(made.keys())
        runs, committed = {**runs, **made}, []
        for number in list(waiting):
            conflict = first_conflict(kinds, runs[number].performed, committed)
            if conflict:
                why.append(line("why", count, conflict[0], "after", conflict[1]))
                break
            committed += runs[number].left
            del waiting[number]
        for entry in committed:
            values[entry.target] = OPERATIONS[entry.call[0]](values[entry.target], *entry.call[1:])[0]
        runs = {number: runs[number] for number in waiting if not first_conflict(kinds, runs[number].performed, committed)}
    return count, counts, why
