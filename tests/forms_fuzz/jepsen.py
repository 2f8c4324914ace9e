"""A history as Jepsen prints it: EDN, and the lines of jepsen.log and history.txt."""
from __future__ import annotations

import json
import random
from typing import Any, Dict, List, Sequence

from .fields import READS, Variations, clock_of, stamp, value_of
from .histories import Op
from .rows import is_answered, twice
from .truth import points

KEYS = {"int": "{}", "kw": ":k{}", "ns": ":a/k{}", "str": '"k{}"', "numstr": '"{}"', "nested": "[:t {}]"}
NEMESIS = "{{:process :nemesis, :type :info, :f :start-partition, :value nil, :time {}}}"


def spelled(value: Any) -> str:
    """A value of JSON as EDN."""
    if value is None:
        return "nil"
    if isinstance(value, bool):
        return "true" if value else "false"
    if isinstance(value, str):
        return json.dumps(value, ensure_ascii=False)
    if isinstance(value, dict):
        return "{" + ", ".join(f":{name} {spelled(field)}" for name, field in value.items()) + "}"
    return "[" + " ".join(map(spelled, value)) + "]" if isinstance(value, list) else repr(value)


def _body(op: Op, side: int, ways: Variations) -> str:
    """The value of an event without its key."""
    answered = side == 1 and is_answered(op)
    value = op.answer if answered else op.part
    if isinstance(value, frozenset):
        opens, closes = ("(", ")") if ways.get("setread") == "list" else ("#{", "}")
        return opens + " ".join(spelled(member) for member in value_of(value, ways)) + closes
    return spelled(value_of(value, ways, answered))


def _key(op: Op, ways: Variations) -> str:
    way = ways.get("keys", "int")
    if ways.get("alikekeys") and op.name in READS:
        way = "numstr" if way == "int" else way
    return str(op.key + (1 << 40)) if way == "big" else KEYS[way].format(op.key)


# --- EDN ---

def events(ops: Sequence[Op], ways: Variations, chance: random.Random) -> str:
    lines: List[str] = []
    clients: List[int] = []
    processes = {op.client: op.client for op in ops}
    many = max(processes, default=0) + 1
    for index, (mark, place, side) in enumerate(points(ops)):
        op = ops[place]
        fields = _fields(op, side, processes[op.client], ways)
        if ways.get("index"):
            fields[":index"] = str(index)
        if not ways.get("notime"):
            fields[":time"] = _time(clock_of(mark, op.client, ways), ways)
        if side and op.outcome == "info":
            fields[":error"] = ":timeout"
            processes[op.client] += many if ways.get("newprocess") else 0
        lines.append(_element(fields, ways))
        clients.append(op.client)
        if ways.get("nemesis") and index % 5 == 2:
            lines.append(NEMESIS.format(_time(mark, ways)))
            clients.append(-1)
    if ways.get("order") == "clients":
        lines = [line for _, line in sorted(zip(clients, lines), key=lambda pair: pair[0])]
    text = "\n".join(twice(lines, ways, chance)) + "\n"
    return "[" + text + "]" if ways.get("array") else text


def _time(mark: int, ways: Variations) -> str:
    return f'#inst "{stamp(mark, 0, "Z", 0)}"' if ways.get("inst") else str(mark * 1000)


def _fields(op: Op, side: int, process: int, ways: Variations) -> Dict[str, str]:
    kind = "invoke" if side == 0 else op.outcome
    body, key = _body(op, side, ways), _key(op, ways)
    value = body if ways.get("nokeys") or ways.get("keyfield") else f"[{key} {body}]"
    if ways.get("tuplemap") and not ways.get("nokeys"):
        value = f"{{:key {key}, :value {body}}}"
    if ways.get("nil_fail") and kind == "fail":
        value = "nil"
    shown = process * 1003 if ways.get("clients") == "sparse" else process
    fields = {":process": str(shown), ":type": f":{kind}", ":f": f":{op.name}", ":value": value}
    return {**fields, ":value": body, ":key": key} if ways.get("keyfield") else fields


def _element(fields: Dict[str, str], ways: Variations) -> str:
    names = sorted(fields) if ways.get("typefirst") else list(fields)
    comma = "\n " if ways.get("pprint") else ", "
    return ("#jepsen.history.Op" if ways.get("record") else "") + "{" + comma.join(f"{name} {fields[name]}" for name in names) + "}"


# --- Lines of a log ---

def log(ops: Sequence[Op], ways: Variations, chance: random.Random) -> str:
    lines = []
    for mark, place, side in points(ops):
        op = ops[place]
        body = _body(op, side, ways)
        value = body if ways.get("nokeys") else f"[{op.key} {body}]"
        kind = "invoke" if side == 0 else op.outcome
        line = f"{op.client}\t:{kind}\t:{op.name}\t{value}" + ("\t:timeout" if kind == "info" else "")
        if ways.get("prefix"):
            line = f"2024-05-01 10:00:00,{mark % 1000:03}{{GMT}}\tINFO\t[jepsen worker {op.client}] jepsen.util: {line}"
        lines.append(line)
        if ways.get("nemesis") and place % 5 == 2:
            lines.append("2024-05-01 INFO something happened")
    return "\n".join(twice(lines, ways, chance)) + "\n"
