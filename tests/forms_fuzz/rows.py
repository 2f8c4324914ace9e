"""A history as rows: one an operation, or one an event, with the fields that a test may give them; and rows as JSON and CSV."""
from __future__ import annotations

import csv
import io
import json
import random
from typing import Any, Dict, List, Sequence

from .fields import (Variations, client_of, key_fields, missing_fields, outcome_of, time_of, value_of, word_of)
from .histories import Op
from .truth import points

Row = Dict[str, Any]
TIME_NAMES = {
    "plain": ("call", "return"), "start": ("start", "end"), "begin": ("begin", "finish"), "time_": ("start_time", "end_time"),
    "camel": ("invokeTime", "completeTime"), "ns": ("start_ns", "end_ns"),
}
TYPES = {
    "plain": ("invoke", "ok", "fail", "info"), "call": ("call", "return", "failed", "timeout"),
    "start": ("start", "end", "failure", "unknown"), "request": ("request", "response", "fail", "error"),
    "upper": ("INVOKE", "OK", "FAIL", "INFO"),
}
ANSWERS = {"result": "result", "value": "value", "output": "output", "odd": "returned_value", "data": "data", "object": "output"}
MILLISECOND = 10 ** 6
MAPPED = {"who": "client", "step": "type", "what": "f", "thing": "key", "payload": "value", "t0": "call", "t1": "return", "how": "outcome",
          "moment": "time"}  # names that nobody knows, with what they mean
UNKNOWN = {name: unknown for unknown, meaning in MAPPED.items()
           for name in {"client": ("client", "process"), "f": ("f", "op"), "outcome": ("status",)}.get(meaning, (meaning,))}


def is_answered(op: Op) -> bool:
    return op.outcome == "ok" and op.name in ("read", "dequeue")


# --- Operations ---

def of_operations(ops: Sequence[Op], ways: Variations) -> List[Row]:
    return [_operation(place, op, ways) for place, op in enumerate(ops)]


def _operation(place: int, op: Op, ways: Variations) -> Row:
    row: Row = {"client": client_of(op.client, ways), "op": word_of(op, ways), **key_fields(op, ways), **_asked(op, ways)}
    if is_answered(op):
        row.update(_answered(op, ways))
    row.update(_times(op, ways))
    row.update(outcome_of(op, ways))
    return row_with_more(row, place, op, ways)


def _asked(op: Op, ways: Variations) -> Row:
    if op.name != "cas":
        return {} if op.part is None else {"value": value_of(op.part, ways)}
    old, new = value_of(op.part, ways)
    names = ways.get("casnames", "old")
    return {"value": [old, new]} if names == "pair" else {"expected": old, "value": new} if names == "expected" else {"old": old, "new": new}


def _answered(op: Op, ways: Variations) -> Row:
    way = ways.get("answers", "result")
    answer, name = value_of(op.answer, ways, True), ANSWERS[way]
    if way == "object":
        return {name: {"value": answer}}
    return {name: answer, **(missing_fields(op, name, ways) if way in ("result", "value", "output") else {})}


def _times(op: Op, ways: Variations) -> Row:
    call, end = TIME_NAMES[ways.get("names", "plain")]
    if ways.get("unitmix"):
        began, ended = (None if mark is None else time_of(mark, op, {**ways, "times": "int"}) for mark in (op.call, op.end))
        return {"start_ms": began, **({} if ended is None else {"end_ns": ended * MILLISECOND})}
    row: Row = {call: time_of(op.call, op, ways)}
    if op.end is not None:
        row[end] = time_of(op.end, op, ways)
    elif ways.get("nullret"):
        row[end] = None
    return row


# --- Events ---

def of_events(ops: Sequence[Op], ways: Variations) -> List[Row]:
    return [_event(mark, place, ops[place], side, ways) for mark, place, side in points(ops)]


def _event(mark: int, place: int, op: Op, side: int, ways: Variations) -> Row:
    types = TYPES[ways.get("types", "plain")]
    kind = ("invoke", "ok", "fail", "info").index("invoke" if side == 0 else op.outcome)
    row: Row = {"process": client_of(op.client, ways), "type": types[kind], "f": word_of(op, ways), **key_fields(op, ways)}
    if op.part is not None:
        row.update({} if side and ways.get("shortend") else {"value": value_of(op.part, ways)})
    elif side and is_answered(op):
        way = ways.get("answers", "value")
        row["value" if way == "object" else ANSWERS[way]] = value_of(op.answer, ways, True)
        row.update(missing_fields(op, "value", ways) if way == "value" else {})
    elif ways.get("nullvalue"):
        row["value"] = None
    if side and ways.get("endsay") and ways.get("outcome") != "type":  # the completion is an event "ok", and another field says how it ended
        row["type"] = types[1]
        row.update({name: field for name, field in outcome_of(op, ways).items() if name != "type"})
    if ways.get("starts"):
        row["start_time"] = time_of(op.call, op, ways)
    if not ways.get("notime"):
        row["time"] = time_of(mark, op, ways)
    return row_with_more(row, place, op, ways)


def row_with_more(row: Row, place: int, op: Op, ways: Variations) -> Row:
    if ways.get("ids"):
        row["id"] = place % 5
    if ways.get("extra"):
        row.update({"node": f"n{op.client % 3}", "attempt": 1, "latency_ms": 3})
    return {UNKNOWN.get(name, name): field for name, field in row.items()} if ways.get("mapped") else row


# --- Order, and texts ---

def ordered(rows: List[Row], ways: Variations, chance: random.Random) -> List[Row]:
    how = ways.get("order", "call")
    if how == "clients":
        rows = sorted(rows, key=lambda row: str(row.get("client", row.get("process"))))
    elif how == "shuffled":
        rows = chance.sample(rows, len(rows))
    elif how == "reversed":
        rows = rows[::-1]
    return twice(rows, ways, chance)


def twice(rows: List[Any], ways: Variations, chance: random.Random) -> List[Any]:
    """The rows, or lines, with one that stands twice where the variation says so."""
    if not ways.get("dup") or not rows:
        return rows
    place = chance.randrange(len(rows))
    return rows[:place + 1] + rows[place:]


def as_json(rows: List[Row], ways: Variations) -> str:
    dumped = [json.dumps(row, ensure_ascii=bool(ways.get("ascii"))) for row in rows]
    if ways.get("array"):
        return "[" + ",\n".join(dumped) + "]\n"
    if ways.get("wrapped"):
        return '{"test": "t", "history": [' + ",\n".join(dumped) + "]}\n"
    return "".join(line + "\n" for line in dumped)


def as_csv(rows: List[Row], ways: Variations) -> str:
    columns = list(dict.fromkeys(column for row in rows for column in row))
    out = io.StringIO()
    writer = csv.writer(out, delimiter=ways.get("delimiter", ","), lineterminator="\n")
    writer.writerow(columns)
    writer.writerows([_cell(row.get(column), ways) for column in columns] for row in rows)
    return out.getvalue()


def _cell(field: Any, ways: Variations) -> Any:
    if isinstance(field, (list, dict)):
        return json.dumps(field)
    if isinstance(field, bool):
        return str(field) if ways.get("pybool") else str(field).lower()
    return "" if field is None else field


