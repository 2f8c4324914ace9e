"""A history as loggers and tracers print it: slog's JSON, logfmt, free lines with a mapping file, CSV without a heading, and OTLP spans."""
from __future__ import annotations

import json
import random
from typing import Any, Dict, List, Sequence

from . import rows
from .fields import EPOCH, Variations, key_of, value_of, word_of
from .histories import Op
from .rows import Row

LINE = r"^(?P<time>\S+) \[(?P<client>[^\]]+)\] (?P<type>\w+) (?P<f>\w+)(?: key=(?P<key>\S+))?(?: value=(?P<value>.+))?$"
COLUMNS = ["client", "op", "key", "value", "old", "new", "result", "call", "return", "status"]
PLAIN_TIMES = {"times": "iso"}
OTHER_LINES = ("2024-05-01T10:00:00.000Z [main] the test begins", "ERROR a line of another logger", "\tat org.example.Kv.put(Kv.java:61)")


def _events(ops: Sequence[Op], ways: Variations) -> List[Row]:
    return rows.of_events(ops, {**PLAIN_TIMES, **ways, "notime": 0, "types": "plain"})


def _shuffled(found: List[Row], ways: Variations, chance: random.Random) -> List[Row]:
    return rows.ordered(found, ways, chance)


# --- slog's JSON, and logfmt ---

def slog(ops: Sequence[Op], ways: Variations, chance: random.Random) -> str:
    found = [{"time": row.pop("time"), "level": "INFO", "msg": row.pop("type"), **row} for row in _events(ops, ways)]
    return rows.as_json(_shuffled(found, ways, chance), ways)


def logfmt(ops: Sequence[Op], ways: Variations, chance: random.Random) -> str:
    found = [{"time": row.pop("time"), "level": "INFO", "msg": row.pop("type"), **row} for row in _events(ops, ways)]
    return "".join(" ".join(f"{name}={_quoted(field)}" for name, field in row.items()) + "\n" for row in _shuffled(found, ways, chance))


def _quoted(field: Any) -> str:
    """A value as Go's loggers print it."""
    text = "<nil>" if field is None else json.dumps(field) if isinstance(field, (list, dict)) else str(field)
    return json.dumps(text, ensure_ascii=False) if not text or any(mark in text for mark in ' "=\\') else text


# --- Lines of a free form ---

def lines(ops: Sequence[Op], ways: Variations, chance: random.Random) -> str:
    texts: List[str] = []
    for row in _shuffled(_events(ops, ways), ways, chance):
        if ways.get("others") and chance.random() < 0.3:
            texts.append(chance.choice(OTHER_LINES))
        key = f" key={row['key']}" if "key" in row else ""
        value = f" value={json.dumps(row['value'])}" if row.get("value") is not None else ""
        texts.append(f"{row['time']} [client-{row['process']}] {row['type']} {row['f']}{key}{value}")
    return "".join(text + "\n" for text in texts)


def line_mapping() -> Dict[str, Any]:
    return {"line": LINE}


# --- CSV without a heading ---

def headless(ops: Sequence[Op], ways: Variations, chance: random.Random) -> str:
    found = rows.of_operations(ops, {**ways, "names": "plain", "outcome": "status"})
    whole = [{column: row.get(column) for column in COLUMNS} for row in _shuffled(found, ways, chance)]
    return rows.as_csv(whole, ways).split("\n", 1)[1] if whole else ""


def headless_mapping() -> Dict[str, Any]:
    return {"columns": COLUMNS}


# --- OTLP ---

def otlp(ops: Sequence[Op], ways: Variations, chance: random.Random) -> str:
    """Spans as an exporter prints them, one resource a client. A span is exported once it has ended, so each operation has an end."""
    last = max([op.end or op.call for op in ops], default=0) + 5
    spans = [_span(op, ways, op.end if op.end is not None else last) for op in ops]
    if ways.get("order") == "shuffled":
        chance.shuffle(spans)
    whole = {"resourceSpans": [{"resource": {"attributes": [_attribute("service.name", "kv-test")]},
                                "scopeSpans": [{"scope": {"name": "kv"}, "spans": spans}]}]}
    return json.dumps(whole, indent=1 if ways.get("pretty") else None) + "\n"


def _span(op: Op, ways: Variations, end: int) -> Dict[str, Any]:
    attributes = [_attribute("client", op.client)]
    if not ways.get("nokeys"):
        attributes.append(_attribute("key", key_of(op, ways)))
    if op.name == "cas":
        attributes += [_attribute(name, value_of(part, ways)) for name, part in zip(("old", "new"), op.part)]
    elif op.part is not None:
        attributes.append(_attribute("value", value_of(op.part, ways)))
    if rows.is_answered(op) and op.answer is not None:
        attributes.append(_attribute("result", value_of(op.answer, ways, True)))
    if op.outcome == "fail":
        attributes.append(_attribute("outcome", "fail"))
    status = {"code": 2, "message": "timeout"} if op.outcome == "info" else {}
    return {"traceId": f"{op.call:032x}", "spanId": f"{op.call:016x}", "name": word_of(op, ways), "kind": 3,
            "startTimeUnixNano": str(EPOCH * 10 ** 9 + op.call * 1000), "endTimeUnixNano": str(EPOCH * 10 ** 9 + end * 1000),
            "attributes": attributes, "status": status}


def _attribute(name: str, value: Any) -> Dict[str, Any]:
    if isinstance(value, list):
        return {"key": name, "value": {"arrayValue": {"values": [_attribute("", member)["value"] for member in value]}}}
    if isinstance(value, bool):
        return {"key": name, "value": {"boolValue": value}}
    if isinstance(value, int):
        return {"key": name, "value": {"intValue": str(value)}}
    if isinstance(value, float):
        return {"key": name, "value": {"doubleValue": value}}
    return {"key": name, "value": {"stringValue": value if isinstance(value, str) else json.dumps(value)}}
