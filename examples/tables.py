"""How a script reads a CSV file (RFC 4180): a header, and rows with a field for each of its columns."""

import re

from reading import Fault, Field

CELL = re.compile(r'(?:"([^"]*(?:""[^"]*)*)"|([^",]*))(,|\Z)')


def cells(first, text):
    """The fields of a row that begins with the line `first`, and the place of its end."""
    fields, at, line, begin = [], 0, first.line, 0
    while not fields or found[3]:
        found = CELL.match(text, at)
        if not found:
            raise Fault(Field("", line, at - begin + 1), "a quote that isn't closed, or a field that isn't all in quotes")
        fields.append(Field(found[2] if found[1] is None else found[1].replace('""', '"'), line, at - begin + 1))
        if "\n" in found[0]:
            line, begin = line + found[0].count("\n"), at + found[0].rindex("\n") + 1
        at = found.end()
    return fields, Field("", line, at - begin + 1)


def rows(lines):
    """The fields of each row of a CSV file (RFC 4180), and the place of its end. A field in quotes may have line breaks."""
    for first in lines:
        held, is_open = [first.text], first.text.count('"') % 2
        while is_open and (line := next(lines, None)):
            held.append(line.text)
            is_open ^= line.text.count('"') % 2
        yield cells(first, "\n".join(held))


def table(lines, forms, passed_over):
    """The columns of the form that the header has most of, and each row's fields of these columns."""
    found = rows(lines)
    header, end = next(found, ([], Field("", 1, 1)))
    columns = [field.text for field in header]
    form = max(forms, key=lambda form: len(set(form) & set(columns)))
    for place, field in enumerate(header):
        if field.text not in form + passed_over:
            raise Fault(field, "an unknown column: %r" % field.text)
        if field.text in columns[:place]:
            raise Fault(field, "the column %r is there twice" % field.text)
    for column in form:
        if column not in columns:
            raise Fault(end, "there is no column %r" % column)
    places = [columns.index(column) for column in form]
    return form, (taken(places, columns, *row) for row in found)


def taken(places, columns, fields, end):
    if len(fields) > len(columns):
        raise Fault(fields[len(columns)], "a surplus field; a field with a comma needs quotes, and an amount has a point")
    if len(fields) < len(columns):
        raise Fault(end, "there is no field for the column %r" % columns[len(fields)])
    return [fields[place] for place in places]
