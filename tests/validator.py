"""A validator of the keywords of JSON Schema that `docs/document.schema.json` uses, and of no other.

`errors` gives each error as its place in the document (members and indices) and a line of text.
"""

import json
import re

# Keywords that say nothing of a value, or that are read with another one.
SILENT = {"$schema", "$id", "$defs", "title", "description", "then", "else"}


def is_number(value):
    return isinstance(value, (int, float)) and not isinstance(value, bool)


TYPES = {
    "object": lambda value: isinstance(value, dict),
    "array": lambda value: isinstance(value, list),
    "string": lambda value: isinstance(value, str),
    "integer": lambda value: is_number(value) and value == value // 1,
}


def canonical(value):
    """One text for each JSON value: 4.0 is 4, and true isn't 1."""
    if isinstance(value, float) and value == value // 1:
        value = int(value)
    if isinstance(value, list):
        return "[%s]" % ",".join(map(canonical, value))
    if isinstance(value, dict):
        return "{%s}" % ",".join("%s:%s" % (json.dumps(key), canonical(value[key])) for key in sorted(value))
    return json.dumps(value)


def among(value, values):
    return canonical(value) in map(canonical, values)


# What a keyword asks of a value alone: the type of values that it speaks of, and whether it holds.
ASSERTIONS = {
    "type": (object, lambda wanted, value: TYPES[wanted](value)),
    "const": (object, lambda wanted, value: among(value, [wanted])),
    "enum": (object, lambda wanted, value: among(value, wanted)),
    "minimum": ((int, float), lambda least, value: not is_number(value) or value >= least),
    "maximum": ((int, float), lambda most, value: not is_number(value) or value <= most),
    "pattern": (str, lambda pattern, value: re.search(pattern, value) is not None),
    "minItems": (list, lambda least, value: len(value) >= least),
    "maxItems": (list, lambda most, value: len(value) <= most),
    "uniqueItems": (list, lambda _, value: len(set(map(canonical, value))) == len(value)),
    "required": (dict, lambda names, value: all(name in value for name in names)),
}


def parts(schema, value):
    """The parts of a value that a schema speaks of, each with its schema and its step in the place."""
    if isinstance(value, list):
        first = schema.get("prefixItems", [])
        for index, item in enumerate(value):
            if index < len(first) or "items" in schema:
                yield first[index] if index < len(first) else schema["items"], item, [index]
    if isinstance(value, dict):
        members = schema.get("properties", {})
        for name, member in value.items():
            yield schema.get("propertyNames", True), name, [name]
            yield members.get(name, schema.get("additionalProperties", True)), member, [name]


PARTS = {"prefixItems", "items", "properties", "propertyNames", "additionalProperties"}


class Validator:
    def __init__(self, schema):
        self.schema = schema

    def errors(self, value):
        return list(self.of(self.schema, value, []))

    def is_valid(self, schema, value):
        return next(self.of(schema, value, []), None) is None

    def of(self, schema, value, place):
        if isinstance(schema, bool):
            if not schema:
                yield place, "is refused"
            return
        for keyword, wanted in schema.items():
            if keyword in ASSERTIONS:
                speaks_of, holds = ASSERTIONS[keyword]
                if isinstance(value, speaks_of) and not holds(wanted, value):
                    yield place, "%s: %s" % (keyword, json.dumps(wanted))
            elif keyword not in PARTS and keyword not in SILENT:
                yield from self.of_combined(keyword, schema, value, place)
        for part_schema, part, step in parts(schema, value):
            yield from self.of(part_schema, part, place + step)

    def of_combined(self, keyword, schema, value, place):
        """Keywords with schemas for the same value."""
        wanted = schema[keyword]
        if keyword == "$ref":
            yield from self.of(self.schema["$defs"][wanted.removeprefix("#/$defs/")], value, place)
        elif keyword == "allOf":
            for each in wanted:
                yield from self.of(each, value, place)
        elif keyword == "oneOf":
            if sum(self.is_valid(each, value) for each in wanted) != 1:
                yield place, "oneOf: %s" % json.dumps(wanted)
        elif keyword == "not":
            if self.is_valid(wanted, value):
                yield place, "not: %s" % json.dumps(wanted)
        elif keyword == "if":
            branch = "then" if self.is_valid(wanted, value) else "else"
            yield from self.of(schema.get(branch, True), value, place)
        else:
            raise ValueError("no keyword of this validator: %s" % keyword)
