"""Rows within objects: the members of nested lists, and the spans of OTLP, whose attributes are lists of keys and values."""
from __future__ import annotations

from typing import Any, Dict, Iterator, List

from . import Refused

PATH = "resourceSpans[].scopeSpans[].spans[]"
STATUSES = {0: "unset", 1: "ok", 2: "error", "STATUS_CODE_UNSET": "unset", "STATUS_CODE_OK": "ok", "STATUS_CODE_ERROR": "error"}


def members(line: int, value: Any, path: str) -> Iterator[Any]:
    """Yields the objects to which a path leads. A path has names with dots between them, and [] behind the name of a list."""
    found: List[Any] = [value]
    for name in path.split("."):
        inner = [one[name.replace("[]", "")] for one in found if isinstance(one, dict) and name.replace("[]", "") in one]
        found = [member for one in inner for member in (one if isinstance(one, list) else [one])] if name.endswith("[]") else inner
    for member in found:
        if not isinstance(member, dict):
            raise Refused(f"line {line}: a member of {path} is not an object, so not a row")
        yield member


def row(span: Dict[str, Any]) -> Dict[str, Any]:
    """The object, in which lists of keys and values (such as attributes and tags) are objects. A span of OTLP has its status as a word."""
    made = {name: _members(field) if type(field) is list and field else field for name, field in span.items()}
    status = span.get("status")
    if isinstance(status, dict) and "startTimeUnixNano" in span:
        made["status"] = STATUSES.get(status.get("code", 0), status.get("code"))
        if status.get("message"):
            made["error"] = status["message"]
    return made


def _members(field: List[Any]) -> Any:
    """A list of keys and values as an object. Any other list stays as it is."""
    if all(isinstance(one, dict) and isinstance(one.get("key"), str) and "value" in one for one in field):
        return {one["key"]: _value(one["value"]) for one in field}
    return field


def _value(value: Any) -> Any:
    """The value of an attribute, in OTLP an object that says its type."""
    if not isinstance(value, dict):
        return value
    if "intValue" in value:
        return int(value["intValue"])
    if "arrayValue" in value:
        return [_value(one) for one in value["arrayValue"].get("values", [])]
    return next((value[kind] for kind in ("stringValue", "boolValue", "doubleValue", "bytesValue") if kind in value), None)
