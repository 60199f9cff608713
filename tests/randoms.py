"""Random documents that `check` takes, and random faults in them."""

import copy
import re

# For each kind the version that has it, random starts, and its operations: version, arguments, words or the other test.
KINDS = {
    "account": (1, lambda chance: chance.choice((0, 5, 10 ** 15)), (
        ("deposit", 1, "N", ("ok",)), ("withdraw", 1, "N", ("ok", "no")), ("balance", 1, "", "atleast"))),
    "counter": (1, lambda chance: chance.choice((0, -5, 10 ** 15, -10 ** 15)), (
        ("add", 1, "N", ("ok",)), ("sub", 1, "N", ("ok",)), ("read", 1, "", "atleast"))),
    "set": (1, lambda chance: names(chance), (
        ("insert", 1, "I", ("added", "present")), ("remove", 1, "I", ("removed", "absent")), ("has", 1, "I", ("yes", "no")),
        ("size", 1, "", "atleast"))),
    "queue": (1, lambda chance: names(chance), (
        ("enq", 1, "I", ("ok",)), ("deq", 1, "", ("got", "empty", "item")), ("length", 2, "", "atleast"))),
    "directory": (1, lambda chance: [[key, name(chance)] for key in names(chance)], (
        ("bind", 1, "II", ("bound", "taken")), ("put", 1, "II", ("ok",)), ("unbind", 1, "I", ("gone", "missing")),
        ("lookup", 1, "I", ("found", "missing", "item")))),
    "max": (2, lambda chance: chance.choice((0, 7, 10 ** 15)), (("raise", 2, "N", ("ok",)), ("top", 2, "", "atleast"))),
}
OPERATIONS = [operation[0] for _, _, operations in KINDS.values() for operation in operations]
MEMBERS = ("ordtx", "objects", "transactions", "name", "kind", "start", "op", "from", "as", "if", "is", "atleast", "item", "then", "else",
           "sub", "handlers", "handler", "abort", "parallel")
NAMES = ("a", "b-1", "C_2", "0", "n" * 32)
NUMBERS = (0, -1, 1, 10 ** 12, 10 ** 12 + 1, 10 ** 15 + 1, -10 ** 15 - 1, 2 ** 63 - 1, 2 ** 63, -2 ** 63, -2 ** 63 - 1, 2 ** 64, 0.5)
OTHERS = (None, True, False, 3, "x", "", "a b", "ä", "a\n", "a.b", "n" * 33, "n" * 129, [], {}, [[]], ["a"], ["a", "b"])
SHORT = re.compile(r"a|b-1|C_2|0|n{32}|[on][0-9]+")


def name(chance, among=NAMES):
    return chance.choice(among)


def names(chance, among=NAMES):
    return chance.sample(among, chance.randrange(min(3, len(among)) + 1))


class Writer:
    """Writes blocks of a document of one version over its objects. A block has at most so many steps. An operation whose reply
    has a number or an item comes `weight` times as often as another."""

    def __init__(self, chance, version, objects, steps=3, weight=1, reasons=NAMES):
        self.chance, self.version, self.objects, self.labels = chance, version, objects, 0
        self.steps, self.weight, self.reasons = steps, weight, reasons

    def block(self, depth, seen):
        """Steps; `seen` has the labels that they see, each with the tests that fit."""
        seen = dict(seen)
        return [self.step(depth, seen) for _ in range(self.chance.randrange(self.steps + 1))]

    def step(self, depth, seen):
        sorts = [self.operation] * 6 * bool(self.objects) + [self.abort]
        if depth:
            sorts += [self.subaction, self.parallel] + [self.condition] * 3 * bool(seen)
        return self.chance.choice(sorts)(depth, seen)

    def label(self, step, tests, seen):
        if self.chance.random() < 0.7:
            self.labels += 1
            step["as"] = "n%d" % self.labels
            seen[step["as"]] = tests
        return step

    def operation(self, _, seen):
        chance = self.chance
        target = chance.choice(self.objects)
        verb, _, arguments, tests = chance.choice([
            one for one in KINDS[target["kind"]][2] if one[1] <= self.version
            for _ in range(self.weight if one[3] == "atleast" or "item" in one[3] else 1)])
        step = {"op": [target["name"], verb, *(self.argument(one, seen) for one in arguments)]}
        aborts = {"else": chance.choice((True, name(chance, self.reasons)))} if self.version > 4 and chance.random() < 0.3 else {}
        # After `as`, or before it.
        return {**self.label({**step, **aborts} if chance.random() < 0.3 else step, tests, seen), **aborts}

    def argument(self, sort, seen):
        """An amount or an item, or, in a version that has it, a label that may give one."""
        chance = self.chance
        labels = [label for label, tests in seen.items() if ("atleast" == tests if sort == "N" else "item" in tests)]
        if self.version > 4 and labels and chance.random() < 0.8:
            return {"from": chance.choice(labels)}
        return chance.choice((1, 20, 10 ** 12)) if sort == "N" else name(chance)

    def abort(self, *_):
        return {"abort": name(self.chance, self.reasons) if self.version > 2 and self.chance.random() < 0.5 else True}

    def condition(self, depth, seen):
        label = self.chance.choice(list(seen))
        test = seen[label] if seen[label] == "atleast" else self.chance.choice(seen[label])
        step = {"if": label, "then": self.block(depth - 1, seen)}
        if test == "atleast":
            step[test] = self.chance.choice((0, 5, -2 ** 63, 2 ** 63 - 1))
        else:
            step["item" if test == "item" else "is"] = name(self.chance) if test == "item" else test
        if self.chance.random() < 0.5:
            step["else"] = self.block(depth - 1, seen)
        return step

    def subaction(self, depth, seen):
        step = {"sub": self.block(depth - 1, seen)}
        if self.version > 2 and self.chance.random() < 0.4:
            step["handlers"] = {reason: self.block(depth - 1, seen) for reason in names(self.chance, self.reasons)}
        if self.chance.random() < 0.4:
            step["handler"] = self.block(depth - 1, seen)
        return self.label(step, ("committed", "aborted"), seen)

    def parallel(self, depth, seen):
        after, children = {}, []
        for _ in range(self.chance.randrange(3)):
            outer = dict(seen)
            children.append(self.subaction(depth, outer))
            after.update({label: tests for label, tests in outer.items() if label not in seen})
        seen.update(after)
        return {"parallel": children}


def renamed(value):
    """The same with names that no version before 5 has."""
    if isinstance(value, str):
        return "Assets:%s/@+#%%." % value if SHORT.fullmatch(value) else value
    if isinstance(value, dict):
        return {renamed(name): renamed(part) for name, part in value.items()}
    return [renamed(part) for part in value] if isinstance(value, list) else value


def whole(chance, version=None, most=3, **options):
    """A document that `check` takes, with at most so many objects and transactions, and options of the `Writer`."""
    version = version or chance.randrange(1, 6)
    kinds = [kind for kind in KINDS if KINDS[kind][0] <= version]
    objects = []
    for number in range(chance.randrange(most + 1)):
        kind = chance.choice(kinds)
        objects.append({"name": "o%d" % number, "kind": kind, "start": KINDS[kind][1](chance)})
    writer = Writer(chance, version, objects, **options)
    transactions = [writer.block(3, {}) for _ in range(chance.randrange(most + 1))]
    document = {"ordtx": version, "objects": objects, "transactions": transactions}
    return renamed(document) if version > 4 and chance.random() < 0.5 else document


def long(chance, transactions, steps, apart=False):
    """A document of transactions of so many subactions each, whose aborts are all taken. Each may have objects of its own, which
    stand among those of the others, beside an account on which all deposit."""
    ours = [[{"name": "o%d_%d" % (owner, number), "kind": kind, "start": start(chance)}
             for number, (kind, (_, start, _)) in enumerate(KINDS.items())] for owner in range(transactions if apart else 1)]
    blocks = []
    for number in range(transactions):
        writer = Writer(chance, 5, ours[number if apart else 0])
        blocks.append([{"sub": writer.block(3, {}), "handler": []} for _ in range(steps)])
    objects = [one for own in ours for one in own]
    if apart:
        objects.append({"name": "all", "kind": "account", "start": 0})
        chance.shuffle(objects)
        for block in blocks:
            block.insert(chance.randrange(steps), {"op": ["all", "deposit", 1]})
    return {"ordtx": 5, "objects": objects, "transactions": blocks}


def places(value):
    """The objects and arrays of a document."""
    if isinstance(value, (dict, list)):
        yield value
        for part in value.values() if isinstance(value, dict) else value:
            yield from places(part)


def mutated(chance, document):
    """The document with one change, after which `check` may take it or not."""
    document = copy.deepcopy(document)
    place = chance.choice([one for one in places(document) if one])
    key = chance.choice(list(place) if isinstance(place, dict) else range(len(place)))
    change = chance.randrange(5)
    if change == 0 and isinstance(place, dict):
        place[chance.choice(MEMBERS + ("as ", "Op"))] = place.pop(key)
    elif change == 1:
        del place[key]
    elif change == 2 and isinstance(place, list):
        place.insert(key, chance.choice(OTHERS + NUMBERS + (place[key],)))
    elif isinstance(place[key], str) and place[key] in OPERATIONS:
        place[key] = chance.choice(OPERATIONS)
    elif isinstance(place[key], int):
        place[key] = chance.choice(NUMBERS)
    else:
        place[key] = chance.choice(OTHERS + NUMBERS)
    return document
