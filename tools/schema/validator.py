"""The part of JSON Schema, draft 2020-12, that the schemas of docs/ use. A keyword that is not here is refused."""
import json
import re

# Keywords that say nothing of what is valid.
NOTES = {"$schema", "$comment", "title", "description", "default", "examples"}
KINDS = {"object": dict, "array": list, "string": str, "integer": int, "number": (int, float), "boolean": bool, "null": type(None)}
DEFINITION = "#/$defs/"


class SchemaError(Exception):
    """The schema is none that is known here."""


def read_json(text):
    """The value of a JSON text. What is written with a fraction, an exponent or a sign before 0 is no integer, as for serde_json."""
    return json.loads(text, parse_int=lambda digits: float(digits) if digits == "-0" else int(digits), parse_constant=_no_constant)


def _no_constant(name):
    raise ValueError(f"{name} is not JSON")


class Schema:
    """A schema with the definitions that it refers to: its own, and those of the schemas beside it, by the names of their files."""

    def __init__(self, whole, beside=None):
        self.whole = whole
        self.beside = beside or {}
        self.definitions = whole.get("$defs", {})
        used = set()
        for part in [whole, *self.definitions.values()]:
            self._learn(part, used, is_whole=part is whole)
        if used != set(self.definitions):
            raise SchemaError(f"definitions and references differ: {sorted(used ^ set(self.definitions))}")

    def is_valid(self, value):
        """Whether a value is valid by the schema."""
        return self._holds(self.whole, value)

    def _learn(self, schema, used, is_whole=False):
        """Refuses a keyword that is not known, and notes which definitions are used."""
        if isinstance(schema, bool):
            return
        for keyword, wanted in schema.items():
            if keyword == "$ref":
                file, name = place_of(wanted)
                if not file:
                    used.add(name)
                elif file not in self.beside or name not in self.beside[file].definitions:
                    raise SchemaError(f"a reference to {wanted}")
            elif keyword not in NOTES and keyword not in RULES and not (is_whole and keyword == "$defs"):
                raise SchemaError(f"unknown keyword {keyword}")
            for part in parts_of(keyword, wanted):
                self._learn(part, used)
        if ("then" in schema or "else" in schema) and "if" not in schema:
            raise SchemaError("then or else without if")

    def _holds(self, schema, value):
        if isinstance(schema, bool):
            return schema
        return all(self._rule(keyword, wanted, schema, value) for keyword, wanted in schema.items())

    def _rule(self, keyword, wanted, schema, value):
        if keyword == "$ref":
            file, name = place_of(wanted)
            schema = self.beside[file] if file else self
            return schema._holds(schema.definitions[name], value)
        return keyword not in RULES or RULES[keyword](self._holds, wanted, schema, value)


def place_of(reference):
    """The file, empty for the schema's own, and the name of the definition that a reference is to."""
    file, mark, name = reference.partition(DEFINITION)
    if not mark:
        raise SchemaError(f"a reference to {reference}")
    return file, name


def parts_of(keyword, wanted):
    """The schemas in the value of a keyword."""
    if keyword == "properties":
        return list(wanted.values())
    if keyword in ("allOf", "anyOf", "oneOf", "prefixItems"):
        return wanted
    if keyword in ("items", "additionalProperties", "if", "then", "else"):
        return [wanted]
    return []


def is_kind(wanted, value):
    """A value is of a kind; true and false are no integers."""
    return isinstance(value, KINDS[wanted]) and (wanted == "boolean" or not isinstance(value, bool))


def is_same(one, other):
    """Two texts, integers or truth values are the same."""
    return type(one) is type(other) and one == other


def is_matched(pattern, text):
    """A text is matched whole, by a pattern that says so."""
    if not (pattern.startswith("^") and pattern.endswith("$")):
        raise SchemaError(f"the pattern {pattern} is not of a whole text")
    return re.fullmatch(pattern[1:-1], text, re.ASCII) is not None


def on(kind, test):
    """A rule for values of one kind, which the others pass."""
    return lambda holds, wanted, schema, value: not is_kind(kind, value) or test(holds, wanted, schema, value)


def distinct(values):
    """The values, each that stands there several times once."""
    return {id(value): value for value in values}.values()


def has_no_others(holds, wanted, schema, value):
    """Each field is one of the schema's own, or is as the others are to be."""
    return all(name in schema.get("properties", {}) or holds(wanted, field) for name, field in value.items())


def has_its_case(holds, wanted, schema, value):
    """What holds of a value by whether it passes the schema of `if`."""
    return holds(schema.get("then" if holds(wanted, value) else "else", True), value)


RULES = {
    "type": lambda holds, wanted, schema, value: is_kind(wanted, value),
    "const": lambda holds, wanted, schema, value: is_same(wanted, value),
    "enum": lambda holds, wanted, schema, value: any(is_same(one, value) for one in wanted),
    "allOf": lambda holds, wanted, schema, value: all(holds(part, value) for part in wanted),
    "anyOf": lambda holds, wanted, schema, value: any(holds(part, value) for part in wanted),
    "oneOf": lambda holds, wanted, schema, value: sum(holds(part, value) for part in wanted) == 1,
    "if": has_its_case,
    "then": lambda holds, wanted, schema, value: True,
    "else": lambda holds, wanted, schema, value: True,
    "minimum": on("number", lambda holds, wanted, schema, value: wanted <= value),
    "maximum": on("number", lambda holds, wanted, schema, value: value <= wanted),
    "multipleOf": on("number", lambda holds, wanted, schema, value: value % wanted == 0),
    "maxLength": on("string", lambda holds, wanted, schema, value: len(value) <= wanted),
    "pattern": on("string", lambda holds, wanted, schema, value: is_matched(wanted, value)),
    "minItems": on("array", lambda holds, wanted, schema, value: wanted <= len(value)),
    "maxItems": on("array", lambda holds, wanted, schema, value: len(value) <= wanted),
    "prefixItems": on("array", lambda holds, wanted, schema, value: all(holds(part, item) for part, item in zip(wanted, value))),
    "items": on("array", lambda holds, wanted, schema, value: all(holds(wanted, item) for item in distinct(value))),
    "required": on("object", lambda holds, wanted, schema, value: all(name in value for name in wanted)),
    "properties": on("object", lambda holds, wanted, schema, value: all(holds(part, value[name]) for name, part in wanted.items() if name in value)),
    "additionalProperties": on("object", has_no_others),
}
