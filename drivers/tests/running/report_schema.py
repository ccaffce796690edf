"""Reports as drivers/report.schema.json wants them: the few rules of JSON Schema that it uses."""

from __future__ import annotations

import json
import re
from typing import Any, List, Mapping, Tuple, Union

from running.places import DRIVERS

SCHEMA: Mapping[str, Any] = json.loads((DRIVERS / "report.schema.json").read_text(encoding="ascii"))
TYPES: Mapping[str, Union[type, Tuple[type, ...]]] = {
    "null": type(None),
    "string": str,
    "integer": int,
    "number": (int, float),
    "array": list,
    "object": dict,
    "boolean": bool,
}
KNOWN_RULES = {
    "type",
    "enum",
    "anyOf",
    "required",
    "additionalProperties",
    "properties",
    "items",
    "minimum",
    "maximum",
    "minItems",
    "maxItems",
    "pattern",
    "description",
    "title",
    "$schema",
    "version",
}


def report_faults(report: Mapping[str, Any]) -> List[str]:
    """What of a report is not as its schema wants it."""
    return schema_faults(json.loads(json.dumps(report)), SCHEMA)


def schema_faults(value: Any, rule: Mapping[str, Any], place: str = "$") -> List[str]:
    """What of a JSON value breaks a rule, by its place; a rule that is not known is an error."""
    assert set(rule) <= KNOWN_RULES, rule
    if not _has_type(value, rule):
        return [f"{place} is {value!r}"]
    faults = [] if _keeps_limits(value, rule, place) else [f"{place} is {value!r}"]
    if isinstance(value, list):
        for number, item in enumerate(value):
            faults += schema_faults(item, rule.get("items", {}), f"{place}[{number}]")
    if isinstance(value, dict):
        faults += _object_faults(value, rule, place)
    return faults


def _has_type(value: Any, rule: Mapping[str, Any]) -> bool:
    names = rule.get("type", list(TYPES))
    for name in [names] if isinstance(names, str) else names:
        is_boolean_as_number = isinstance(value, bool) and name != "boolean"
        if isinstance(value, TYPES[name]) and not is_boolean_as_number:
            return True
    return False


def _keeps_limits(value: Any, rule: Mapping[str, Any], place: str) -> bool:
    if "enum" in rule and value not in rule["enum"]:
        return False
    if "anyOf" in rule and all(schema_faults(value, one, place) for one in rule["anyOf"]):
        return False
    if isinstance(value, str):
        return re.search(rule.get("pattern", ""), value) is not None
    if isinstance(value, list):
        count = len(value)
        return bool(rule.get("minItems", 0) <= count <= rule.get("maxItems", count))
    if isinstance(value, (int, float)) and not isinstance(value, bool):
        return bool(rule.get("minimum", value) <= value <= rule.get("maximum", value))
    return True


def _object_faults(value: Mapping[str, Any], rule: Mapping[str, Any], place: str) -> List[str]:
    faults = [f"{place} lacks {key}" for key in rule.get("required", ()) if key not in value]
    for key, item in value.items():
        known = rule.get("properties", {}).get(key, rule.get("additionalProperties", {}))
        if known is False:
            faults.append(f"{place} has {key}")
        else:
            faults += schema_faults(item, known, f"{place}.{key}")
    return faults
