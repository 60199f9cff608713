"""How the scripts read a file: its lines and fields, each with its place, and what is wrong with one."""

import argparse
import collections
import contextlib
import re
import sys

# A text with its place: a line and a column, from 1. Columns count characters.
Field = collections.namedtuple("Field", "text line column")

AMOUNT = re.compile(r"(-?)([0-9]+)(?:\.([0-9]+))?")


class Fault(Exception):
    """What is wrong with a field, as it is printed after the file's name."""

    def __init__(self, field, what):
        super().__init__("%d:%d: %s" % (field.line, field.column, what))


def lines(source):
    """The lines of a file, without their ends."""
    for number, line in enumerate(source, 1):
        try:
            text = line.decode().removesuffix("\n").removesuffix("\r")
        except UnicodeDecodeError as error:
            column = len(line[:error.start].decode()) + 1
            raise Fault(Field("", number, column), "bytes that are no UTF-8") from None
        if number == 1 and text.startswith("\ufeff"):
            raise Fault(Field("", 1, 1), "a byte order mark; write the file without one")
        yield Field(text, number, 1)


def split(line, pattern):
    """The parts of a line that a pattern finds, and the place of its end."""
    found = [Field(part[0], line.line, part.start() + 1) for part in re.finditer(pattern, line.text)]
    return found, Field("", line.line, len(line.text) + 1)


def whole(field, most):
    """The whole number of 1 to so many that a field has."""
    if not re.fullmatch("[0-9]+", field.text):
        raise Fault(field, "no whole number: %r" % field.text)
    digits = field.text.lstrip("0")
    if not digits or len(digits) > len(str(most)) or int(digits) > most:
        raise Fault(field, "not within 1 to %s: %s" % (format(most, ","), field.text))
    return int(digits)


def smallest(field, most, digits=2):
    """An amount, in the smallest unit of its currency."""
    found = AMOUNT.fullmatch(field.text)
    if not found:
        what = "an amount has a point and no comma" if "," in field.text else "no amount"
        raise Fault(field, "%s: %r" % (what, field.text))
    if len(found[3] or "") > digits:
        raise Fault(field, "more than %d digits after the point: %s" % (digits, field.text))
    amount = (found[2] + (found[3] or "").ljust(digits, "0")).lstrip("0") or "0"
    if len(amount) > len(str(most)) or int(amount) > most:
        raise Fault(field, "more than %s of the smallest unit: %s" % (format(most, ","), field.text))
    return int(found[1] + amount)


def convert(made_of, *options):
    """Prints what is made of the lines of FILE or of standard input. After a fault nothing is printed, and the status is 1."""
    parser = argparse.ArgumentParser(description=sys.modules["__main__"].__doc__, formatter_class=argparse.RawTextHelpFormatter)
    parser.add_argument("file", nargs="?", metavar="FILE", help="standard input where it is left out")
    for name, option in options:
        parser.add_argument(name, **option)
    chosen = parser.parse_args()
    try:
        with open(chosen.file, "rb") if chosen.file else contextlib.nullcontext(sys.stdin.buffer) as source:
            text = made_of(lines(source), chosen)
        sys.stdout.buffer.write(text.encode())
        sys.stdout.buffer.flush()
    except Fault as fault:
        sys.exit("%s:%s" % (chosen.file or "standard input", fault))
    except OSError as error:
        sys.exit("%s: %s" % (error.filename or parser.prog, error.strerror))
