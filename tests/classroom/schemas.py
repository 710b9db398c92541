"""A checker for the JSON Schemas in `docs/`. The checker supports only the keywords that these schemas use."""
from __future__ import annotations

import json
from typing import Any

from classroom.core.program import TOP

Schema = dict[str, Any]
KINDS: dict[str, tuple[type, ...]] = {
    "object": (dict,), "array": (list,), "string": (str,), "integer": (int,), "boolean": (bool,), "null": (type(None),),
}
KEYWORDS = {
    "$schema", "$defs", "$ref", "title", "description", "type", "properties", "required", "additionalProperties", "items", "prefixItems",
    "minItems", "maxItems", "minimum", "maximum", "enum", "const", "oneOf", "anyOf",
}


def read(name: str) -> Schema:
    """Returns the schema in the file of `docs/` with this name."""
    found: Schema = json.loads((TOP / "docs" / f"{name}.schema.json").read_text(encoding="utf-8"))
    return found


def fits(value: Any, schema: Schema, top: Schema) -> bool:
    """Returns whether a value is valid for a schema, which is a part of `top`. Raises `ValueError` if the schema has a
    keyword that isn't checked."""
    if unknown := schema.keys() - KEYWORDS:
        raise ValueError(f"keywords that aren't checked: {unknown}")
    if "$ref" in schema:
        return fits(value, top["$defs"][schema["$ref"].removeprefix("#/$defs/")], top)
    # In Python a `bool` is an `int`, but in a schema a boolean is no integer.
    if "type" in schema and (not isinstance(value, KINDS[schema["type"]]) or isinstance(value, bool) != (schema["type"] == "boolean")):
        return False
    if "const" in schema and value != schema["const"] or "enum" in schema and value not in schema["enum"]:
        return False
    if "minimum" in schema and value < schema["minimum"] or "maximum" in schema and value > schema["maximum"]:
        return False
    if "anyOf" in schema and not any(fits(value, each, top) for each in schema["anyOf"]):
        return False
    if "oneOf" in schema and sum(fits(value, each, top) for each in schema["oneOf"]) != 1:
        return False
    return object_fits(value, schema, top) if isinstance(value, dict) else array_fits(value, schema, top) if isinstance(value, list) else True


def object_fits(value: dict[str, Any], schema: Schema, top: Schema) -> bool:
    """Returns whether an object has the required keys, valid values, and no other keys if the schema forbids them. The
    schema is a part of `top`."""
    known: Schema = schema.get("properties", {})
    if not value.keys() >= set(schema.get("required", [])) or schema.get("additionalProperties") is False and value.keys() - known.keys():
        return False
    return all(fits(value[key], each, top) for key, each in known.items() if key in value)


def array_fits(value: list[Any], schema: Schema, top: Schema) -> bool:
    """Returns whether a list has an allowed number of items, and all of them are valid. The schema is a part of
    `top`."""
    if not schema.get("minItems", 0) <= len(value) <= schema.get("maxItems", len(value)):
        return False
    first: list[Schema] = schema.get("prefixItems", [])
    return all(fits(it, each, top) for it, each in zip(value, first)) and all(fits(it, schema.get("items", {}), top) for it in value[len(first):])
