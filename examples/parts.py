#!/usr/bin/env python3
"""Cuts a document into independent ones, and joins their reports: the way to many processes or machines.

    parts.py cut DOCUMENT FOLDER [--most N]
    ls FOLDER/part-*.json | xargs -P 4 -n 1 sh -c 'ordtx serial "$0" > "${0%.json}.txt"'
    parts.py join FOLDER > report.txt

Transactions that share an object are in one part, and so are those that a chain of shared objects leads to. `ordtx check` takes
DOCUMENT. `cut` makes FOLDER, whole or not at all. What `join` prints is what `ordtx serial DOCUMENT` prints.
"""

import argparse
import collections
import json
import pathlib
import re
import sys
import tempfile

from sharing import shared_out
from writing import steps_in

LINE = re.compile(r"^([TOISA]) ([1-9][0-9]*)([. ].*\n)", re.M)
END = re.compile(r"(= [^ ]+ (set|directory) \{)(.*)(\}\n)")


def items_of(document):
    """The items in the order in which they first appear: by it sets and directories are printed."""
    for one in document["objects"]:
        for entry in one["start"] if isinstance(one["start"], list) else ():
            yield from [entry] if isinstance(entry, str) else entry
    for block in document["transactions"]:
        for step in steps_in(block):
            yield from (word for word in step.get("op", ())[2:] if isinstance(word, str))
            yield from [step["item"]] if "item" in step else ()


def cut(document, most):
    """The parts, and what `join` has to know of them."""
    objects, transactions = shared_out(document, most)
    count = max(objects + transactions, default=0) + 1
    parts = [{"ordtx": document["ordtx"], "objects": [], "transactions": []} for _ in range(count)]
    for part, one in zip(objects, document["objects"]):
        parts[part]["objects"].append(one)
    for part, block in zip(transactions, document["transactions"]):
        parts[part]["transactions"].append(block)
    names = [one["name"] for one in document["objects"]]
    return parts, {"objects": list(zip(names, objects)), "transactions": transactions,
                   "items": list(dict.fromkeys(items_of(document)))}


def write_parts(file, folder, most):
    try:
        parts, index = cut(json.loads(file.read_bytes()), most)
    except (ValueError, LookupError, TypeError, AttributeError, RecursionError):
        raise ValueError("%s: no document that `ordtx check` takes" % file) from None
    with tempfile.TemporaryDirectory(dir=folder.parent, prefix=".parts-") as drafts:
        made = pathlib.Path(drafts, "made")
        made.mkdir()
        for name, value in (("parts", index), *(("part-%d" % number, part) for number, part in enumerate(parts, 1))):
            (made / (name + ".json")).write_text(json.dumps(value, separators=(",", ":")) + "\n")
        made.rename(folder)


def read_report(file, transactions, objects):
    """The lines of each transaction, and those of the objects. They are as many as the part has."""
    blocks, ends = [], []
    with file.open(errors="replace") as source:
        for number, line in enumerate(source, 1):
            found = LINE.match(line)
            if found and not ends and int(found[2]) == len(blocks) + (found[1] == "T"):
                blocks += [[]] * (found[1] == "T")
                blocks[-1].append(line)
            elif line.startswith("= ") and line.endswith("\n"):
                ends.append(line)
            else:
                raise ValueError("%s:%d: this is no line of `ordtx serial`, or not in its place" % (file, number))
    if (len(blocks), len(ends)) != (transactions, objects):
        raise ValueError("%s: not the whole report of its part" % file)
    return iter(blocks), iter(ends)


def joined(folder):
    """The report of the whole: the parts' blocks with the whole's numbers, and entries in the whole's order."""
    index = json.loads((folder / "parts.json").read_text())
    objects, transactions = collections.Counter(part for _, part in index["objects"]), collections.Counter(index["transactions"])
    reports = [read_report(folder / ("part-%d.txt" % (part + 1)), transactions[part], objects[part])
               for part in range(max([*objects, *transactions], default=0) + 1)]
    for number, part in enumerate(index["transactions"], 1):
        yield LINE.sub(r"\1 %d\3" % number, "".join(next(reports[part][0])))
    order = {item: place for place, item in enumerate(index["items"])}
    first = lambda kind, entry: entry if kind == "set" else entry.split("=" if "=" in entry else ":")[0]
    sort = lambda found: sorted(found[3].split(), key=lambda entry: order[first(found[2], entry)])
    for _, part in index["objects"]:
        yield END.sub(lambda found: found[1] + " ".join(sort(found)) + found[4], next(reports[part][1]))


def main():
    parser = argparse.ArgumentParser(description=__doc__, formatter_class=argparse.RawDescriptionHelpFormatter)
    commands = parser.add_subparsers(dest="command", required=True)
    cutting = commands.add_parser("cut", help="make a folder of parts")
    cutting.add_argument("document", metavar="DOCUMENT", type=pathlib.Path)
    cutting.add_argument("folder", metavar="FOLDER", type=pathlib.Path)
    cutting.add_argument("--most", metavar="N", type=int, default=10_000, help="how many parts at most")
    joining = commands.add_parser("join", help="print the report of the whole")
    joining.add_argument("folder", metavar="FOLDER", type=pathlib.Path)
    chosen = parser.parse_args()
    try:
        if chosen.command == "cut":
            write_parts(chosen.document, chosen.folder, max(1, chosen.most))
        else:
            sys.stdout.write("".join(joined(chosen.folder)))
    except ValueError as error:
        sys.exit(str(error))
    except OSError as error:
        sys.exit("%s: %s" % (error.filename2 or error.filename or parser.prog, error.strerror))


if __name__ == "__main__":
    main()
