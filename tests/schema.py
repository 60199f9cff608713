#!/usr/bin/env python3
"""`docs/document.schema.json` beside `check`: the schema never refuses what `check` takes.

Of the documents that `check` refuses the schema refuses at least those of another shape (2), with a text that is no name (3),
or with wrong arguments (7). Alone, `tests/schema.py PROGRAM` prints what it finds.
"""

import json
import pathlib
import random
import sys

from program import Program
from randoms import mutated, whole
from validator import Validator

ROOT = pathlib.Path(__file__).resolve().parent.parent
SCHEMA = json.loads((ROOT / "docs" / "document.schema.json").read_text())
RANDOM_DOCUMENTS = 2000
SEED = 4

# Faults that a schema always sees, but where a whole number has a point.
SEEN = (2, 3, 7)

# Steps, whether `check` takes them, and whether the schema does.
READ = '{"op":["c","read"],"as":"n"},'
BOTH_SIDES = (
    ('{"sub":7,"sub":[]}', True, True),
    ('{"sub":[],"sub":7}', False, False),
    (READ + '{"if":"n","atleast":9223372036854775807,"then":[]}', True, True),
    (READ + '{"if":"n","atleast":9223372036854775808,"then":[]}', False, False),
    (READ + '{"if":"n","atleast":-9223372036854775808,"then":[]}', True, True),
    (READ + '{"if":"n","atleast":-9223372036854775809,"then":[]}', False, False),
    ('{"op":["c","add",5.0]}', False, True),
    ('{"op":["c","add",5e3]}', False, True),
    ('{"op":["d","read"]}', False, True),
    ('{"op":["c","size"]}', False, True),
    ('{"if":"n","atleast":0,"then":[]}', False, True),
    (READ + '{"op":["c","read"],"as":"n"}', False, True),
    (READ + '{"if":"n","is":"ok","then":[]}', False, True),
    ('{"sub":[' * 24 + ']}' * 24, False, True),
    (READ + '{"op":["c","add",{"from":"n"}],"else":"r"}', True, True),
    (READ + '{"op":["c","add",{"from":"n"}],"else":true}', True, True),
    ('{"op":["c","add",{"from":"n"}]}', False, True),
    (READ + '{"op":["c","read",{"from":"n"}]}', False, False),
)

# Wrong steps, and the places to which the schema's errors lead.
PLACES = (
    ('{"op":["c","add",0]}', {"op/2"}),
    ('{"op":["c","add",1000000000001]}', {"op/2"}),
    ('{"op":["c","add","x"]}', {"op/2"}),
    ('{"op":["c","insert",7]}', {"op/2"}),
    ('{"op":["c","bind","k","a b"]}', {"op/3"}),
    ('{"op":["c","bind","k"]}', {"op"}),
    ('{"op":["c","add",{"from":7}]}', {"op/2/from"}),
    ('{"op":["c","add",{}]}', {"op/2"}),
    ('{"op":["c","bind",{"from":"n"},{"from":"n","to":"n"}]}', {"op/3/to"}),
    ('{"op":["c","read"],"else":false}', {"else"}),
    ('{"op":["c","read"],"else":"no name"}', {"else"}),
    ('{"op":["c","read",1]}', {"op"}),
    ('{"op":["c","subtract",1]}', {"op/1"}),
    ('{"op":["c d","read"]}', {"op/0"}),
    ('{"op":["c\\n","read"]}', {"op/0"}),
    ('{"op":["%s","read"]}' % ("n" * 129), {"op/0"}),
    ('{"op":["c","read"],"is":"ok"}', {"is"}),
    ('{"op":["c","read"],"sub":[]}', {"", "op", "sub"}),
    ('{"if":"n","is":"maybe","then":[]}', {"is"}),
    ('{"if":"n","is":"ok","atleast":1,"then":[]}', {""}),
    ('{"if":"n","is":"ok"}', {""}),
    ('{"if":"n","is":"ok","then":[{"op":["c","add",0]}]}', {"then/0/op/2"}),
    ('{"sub":[],"handlers":{"a b":[]}}', {"handlers/a b"}),
    ('{"sub":[],"handlers":{"r":[{"abort":false}]}}', {"handlers/r/0/abort"}),
    ('{"parallel":[{"sub":[]},{"op":["c","read"]}]}', {"parallel/1", "parallel/1/op"}),
    ('{"parallel":[{"sub":[{"abort":""}]}]}', {"parallel/0/sub/0/abort"}),
    ('{"ab0rt":true}', {""}),
    ('7', {""}),
)


def of_steps(steps):
    return ('{"ordtx":5,"objects":[{"name":"c","kind":"counter","start":0}],"transactions":[[%s]]}' % steps).encode()


def fault_of(program, document):
    """The fault that `check` has for a document, or None where it takes it."""
    _, status, err = program.run(["check"], document)
    return int(err.split()[1]) if status else None


def try_both_sides(program, validator):
    for steps, *sides in BOTH_SIDES:
        document = of_steps(steps)
        valid = validator.errors(json.loads(document)) == []
        program.compare("check and the schema of %s" % steps, [], (fault_of(program, document) is None, valid), sides)


def try_versions(program, validator):
    """The words that a version lacks, each in a document of `cases/`."""
    found = sorted((ROOT / "tests" / "cases").glob("*_in_version_*.json"))
    refused = [file.name for file in found if validator.errors(json.loads(file.read_bytes()))]
    program.compare("documents with words of a later version", [], (len(found) > 0, refused), (True, [file.name for file in found]))


def try_places(program, validator):
    for step, places in PLACES:
        errors = validator.errors(json.loads(of_steps(step)))
        found = {"/".join(map(str, place[3:])) for place, _ in errors if place[:3] == ["transactions", 0, 0]}
        program.compare("the schema's errors of %s" % step, [], (sorted(found), fault_of(program, of_steps(step)) is None),
                        (sorted(places), False))


def files():
    for folder in ("tests/cases", "examples"):
        for file in sorted((ROOT / folder).glob("*.json")):
            yield file.name, file.read_bytes()


def random_documents():
    chance = random.Random(SEED)
    for number in range(RANDOM_DOCUMENTS):
        document = whole(chance)
        for _ in range(number % 4):
            document = mutated(chance, document)
        yield "random document %d" % number, json.dumps(document).encode()


class Sides:
    """Documents that both sides were asked of."""

    def __init__(self, program, validator):
        self.program, self.validator = program, validator
        self.taken = self.refused = self.refused_by_both = 0

    def compare(self, name, document):
        try:
            errors = self.validator.errors(json.loads(document))
        except ValueError:
            return
        fault = fault_of(self.program, document)
        self.taken += fault is None
        self.refused += fault is not None
        self.refused_by_both += fault is not None and errors != []
        if fault is None:
            self.program.compare("%s, which check takes: %s" % (name, document.decode()), [], (errors,), ([],))
        elif fault in SEEN:
            self.program.compare("%s, of fault %d: %s" % (name, fault, document.decode()), [], (errors != [],), (True,))


def try_all(program):
    validator = Validator(SCHEMA)
    try_both_sides(program, validator)
    try_versions(program, validator)
    try_places(program, validator)
    sides = Sides(program, validator)
    for name, document in (*files(), *random_documents()):
        sides.compare(name, document)
    program.compare("documents that both refuse, and that both take", [],
                    (sides.refused_by_both > 0, sides.taken > 0), (True, True))
    print("schema: refuses %d of %d documents that check refuses, and none of %d that it takes"
          % (sides.refused_by_both, sides.refused, sides.taken))


def main():
    program = Program(sys.argv[1])
    try_all(program)
    sys.exit(program.failed > 0)


if __name__ == "__main__":
    main()
