#!/usr/bin/env python3
"""Shows that docs/definitions.schema.json accepts each example that is shipped, and refuses texts that are wrong.

It reads the keywords that the schema uses and stops at any other, so that nothing of the schema is passed over.
usage: schema.py
"""
import copy
import glob
import json
import os
import re

TOP = os.path.join(os.path.dirname(os.path.abspath(__file__)), "..")
ANNOTATIONS = {"$schema", "$defs", "title", "description"}

IS_OF_TYPE = {
    "object": lambda value: isinstance(value, dict),
    "array": lambda value: isinstance(value, list),
    "string": lambda value: isinstance(value, str),
    "boolean": lambda value: isinstance(value, bool),
    "null": lambda value: value is None,
    "integer": lambda value: isinstance(value, int) and not isinstance(value, bool),
}


def types(names, value):
    return any(IS_OF_TYPE[name](value) for name in ([names] if isinstance(names, str) else names))


def same(left, right):
    """Whether two values are equal in JSON, in which true is not 1."""
    return type(left) is type(right) and left == right


class Schema:
    def __init__(self, root):
        self.root = root

    def referred(self, path):
        found = self.root
        for key in path.removeprefix("#/").split("/"):
            found = found[key]
        return found

    def accepts(self, schema, value):
        if isinstance(schema, bool):
            return schema
        return all(self.keeps(keyword, schema, value) for keyword in schema.keys() - ANNOTATIONS)

    def keeps(self, keyword, schema, value):
        wanted = schema[keyword]
        match keyword:
            case "$ref":
                return self.accepts(self.referred(wanted), value)
            case "type":
                return types(wanted, value)
            case "enum":
                return any(same(one, value) for one in wanted)
            case "oneOf":
                return sum(self.accepts(one, value) for one in wanted) == 1
            case "minimum":
                return not types("integer", value) or value >= wanted
            case "maximum":
                return not types("integer", value) or value <= wanted
            case "minLength":
                return not types("string", value) or len(value) >= wanted
            case "pattern":
                return not types("string", value) or re.search(wanted, value) is not None
            case "items" | "minItems" | "maxItems":
                return not types("array", value) or self.keeps_list(keyword, wanted, value)
        if keyword in ("properties", "required", "additionalProperties", "propertyNames", "minProperties", "maxProperties"):
            return not types("object", value) or self.keeps_object(keyword, schema, value)
        raise SystemExit(f"the keyword {keyword} is not one that this script reads")

    def keeps_list(self, keyword, wanted, items):
        match keyword:
            case "items":
                return all(self.accepts(wanted, item) for item in items)
            case "minItems":
                return len(items) >= wanted
            case "maxItems":
                return len(items) <= wanted

    def keeps_object(self, keyword, schema, members):
        wanted = schema[keyword]
        match keyword:
            case "properties":
                return all(self.accepts(wanted[key], members[key]) for key in members.keys() & wanted.keys())
            case "required":
                return members.keys() >= set(wanted)
            case "additionalProperties":
                others = members.keys() - schema.get("properties", {}).keys()
                return all(self.accepts(wanted, members[key]) for key in others)
            case "propertyNames":
                return all(self.accepts(wanted, key) for key in members)
            case "minProperties":
                return len(members) >= wanted
            case "maxProperties":
                return len(members) <= wanted


def misspelled(office):
    """A key that no machine has."""
    office["machines"][0]["inital"] = office["machines"][0].pop("initial")


def without_a_table(office):
    """A part that is missing."""
    del office["implementations"]


def with_a_fraction(office):
    """A number that isn't whole."""
    office["machines"][0]["context"] = {"amount": 0.5}


def with_two_operators(office):
    """An expression in no form."""
    office["implementations"]["guards"] = {"both": {"$not": True, "$lit": 1}}


def with_a_dot(office):
    """A key that a target couldn't name."""
    office["machines"][0]["states"]["a.b"] = {}


WRONG = [misspelled, without_a_table, with_a_fraction, with_two_operators, with_a_dot]


def read(path):
    with open(os.path.join(TOP, path)) as file:
        return json.load(file)


def main():
    root = read("docs/definitions.schema.json")
    schema = Schema(root)
    examples = sorted(glob.glob("examples/*/office.json", root_dir=TOP)) + ["crates/xoffice/data/office.json"]
    for path in examples:
        office = read(path)
        if not schema.accepts(root, office):
            raise SystemExit(f"{path} is refused")
        for change in WRONG:
            wrong = copy.deepcopy(office)
            change(wrong)
            if schema.accepts(root, wrong):
                raise SystemExit(f"{path} {change.__name__} is accepted")
        print(f"{path}: accepted, and refused with each of {len(WRONG)} faults")


main()
