"""How a test may write one field: a value, a key, a client, a time, an outcome. A variation of the form names the way."""
from __future__ import annotations

import datetime
from typing import Any, Callable, Dict, List

from .histories import Op

Variations = Dict[str, Any]  # by name; a variation that is absent is plain
EPOCH = 1_714_557_600  # seconds: 2024-05-01T10:00:00Z
COARSE = 4  # marks of one coarse time
SKEW = 1000  # marks by which the clock of each client differs from that of the client before it

# --- Values and keys ---

VALUES: Dict[str, Callable[[int, bool], Any]] = {
    "int": lambda value, _: value,
    "str": lambda value, _: f"v{value}",
    "numstr": lambda value, _: str(value),
    "float": lambda value, _: value + 0.5,
    "wholefloat": lambda value, _: float(value),
    "mixfloat": lambda value, is_answer: float(value) if is_answer else value,
    "neg": lambda value, _: -value,
    "huge": lambda value, _: value + (1 << 70),
    "obj": lambda value, is_answer: {"b": [value], "a": value} if is_answer else {"a": value, "b": [value]},
    "objval": lambda value, _: {"id": value, "value": value * 7},
    "list": lambda value, _: [value, value + 1],
    "space": lambda value, _: f" v{value} ",
    "unicode": lambda value, _: f'\u00e9"\\{value}',
    "nilish": lambda value, _: {1: "nil", 2: "None", 3: "NULL", 4: "null"}.get(value, f"v{value}"),
    "zero": lambda value, _: value - 1,
}
KEYS: Dict[str, Callable[[int], Any]] = {
    "int": lambda key: key,
    "str": lambda key: f"k{key}",
    "numstr": str,
    "big": lambda key: key + (1 << 40),
    "nested": lambda key: ["t", key],
}
READS = ("read", "dequeue")  # whose keys are written as texts where others are numbers, by a variation
CLIENTS: Dict[str, Callable[[int], Any]] = {
    "int": lambda client: client,
    "str": lambda client: f"c{client}",
    "sparse": lambda client: client * 1_000_003,
    "numstr": str,
    "uuid": lambda client: f"3f-{client}",
}


def value_of(value: Any, ways: Variations, is_answer: bool = False) -> Any:
    """A value as the test writes it; a list for the two of a cas and for members."""
    if value is None:
        return None
    if isinstance(value, (tuple, frozenset)):
        return [value_of(member, ways, is_answer) for member in (value if isinstance(value, tuple) else sorted(value))]
    written = VALUES[ways.get("values", "int")](value, is_answer)
    return str(written) if is_answer and ways.get("stringly") and isinstance(written, (int, float)) else written


def key_of(op: Op, ways: Variations) -> Any:
    key = KEYS[ways.get("keys", "int")](op.key)
    return str(key) if ways.get("alikekeys") and op.name in READS else key


def client_of(client: int, ways: Variations) -> Any:
    return CLIENTS[ways.get("clients", "int")](client)


# --- Times ---

def stamp(mark: int, client: int, zone: str, shift: int) -> str:
    when = datetime.datetime(2024, 5, 1, 10) + datetime.timedelta(hours=shift, milliseconds=mark)
    return when.strftime("%Y-%m-%dT%H:%M:%S.") + f"{when.microsecond // 1000:03}{zone}"


TIMES: Dict[str, Callable[[int, int], Any]] = {
    "int": lambda mark, _: mark * 1000,
    "rawint": lambda mark, _: mark,
    "epochns": lambda mark, _: EPOCH * 10 ** 9 + mark * 1000,
    "float": lambda mark, _: EPOCH + mark * 0.001,
    "intstr": lambda mark, _: str(mark * 1000),
    "coarse": lambda mark, _: mark // COARSE,
    "iso": lambda mark, client: stamp(mark, client, "Z", 0),
    "isoz": lambda mark, client: stamp(mark, client, *(("Z", 0) if client % 2 else ("+02:00", 2))),
    "isolocal": lambda mark, client: stamp(mark, client, "", 0),
    "isomix": lambda mark, client: stamp(mark, client, "Z" if client % 2 else "", 0),
}


def clock_of(mark: int, client: int, ways: Variations) -> int:
    """The time on the clock of this client. A small error is one of `error` milliseconds at most, both ways."""
    if ways.get("skew"):
        return mark + client * SKEW
    return mark + int(ways["error"]) * (1, -1, 0)[client % 3] if "error" in ways else mark


def ticks_of(mark: int, client: int, ways: Variations) -> int:
    """The time as far as it is printed."""
    clock = clock_of(mark, client, ways)
    return clock // COARSE if ways.get("times") == "coarse" else clock


def time_of(mark: int, op: Op, ways: Variations) -> Any:
    return TIMES[ways.get("times", "int")](clock_of(mark, op.client, ways), op.client)


# --- Outcomes of rows ---

def _ok(field: str, spelled: Callable[[bool], Any]) -> Callable[[Op], Dict[str, Any]]:
    """A field that is true or false; a timeout has an error beside it."""
    return lambda op: {field: spelled(op.outcome == "ok"), **({"error": "timeout"} if op.outcome == "info" else {})}


def _by_outcome(field: str, ok: Any, fail: Any, info: Any) -> Callable[[Op], Dict[str, Any]]:
    return lambda op: {field: {"ok": ok, "fail": fail, "info": info}[op.outcome]}


def _failed_or(fields: Callable[[Op], Dict[str, Any]]) -> Callable[[Op], Dict[str, Any]]:
    """A status where the operation failed, else these fields."""
    return lambda op: {"status": "fail"} if op.outcome == "fail" else fields(op)


OUTCOMES: Dict[str, Callable[[Op], Dict[str, Any]]] = {
    "status": _by_outcome("status", "ok", "fail", "info"),
    "words": _by_outcome("status", "success", "failed", "timeout"),
    "type": _by_outcome("type", "ok", "fail", "info"),
    "result_word": _by_outcome("outcome", "ok", "fail", "info"),
    "code": _by_outcome("code", 200, 409, 504),
    "okbool": _ok("ok", bool),
    "okstr": _ok("ok", lambda ok: "true" if ok else "false"),
    "okPy": _ok("ok", str),
    "ok01": _ok("success", int),
    "failed": lambda op: {"failed": op.outcome == "fail", **({"error": "timeout"} if op.outcome == "info" else {})},
    "timeoutPy": _failed_or(lambda op: {"ok": True if op.outcome == "ok" else None, "timeout": str(op.outcome == "info")}),
    "timeout01": _failed_or(lambda op: {"timeout": int(op.outcome == "info")}),
    "err": _failed_or(lambda op: {} if op.outcome == "ok" else {"err": "timeout"}),
    "errmsg": _failed_or(lambda op: {} if op.outcome == "ok" else {"error_message": "timeout"}),
    "errobj": _failed_or(lambda op: {"error": None if op.outcome == "ok" else {"code": 5}}),
    "result": lambda op: {"result": False} if op.outcome == "fail" else {},
}


def outcome_of(op: Op, ways: Variations) -> Dict[str, Any]:
    """How the row says how the operation ended."""
    return OUTCOMES[ways.get("outcome", "status")](op)


# --- The key, and a missing answer ---

def key_fields(op: Op, ways: Variations) -> Dict[str, Any]:
    """The fields that say the key."""
    name = ways.get("keyname", "key")
    if ways.get("nokeys"):
        return {}
    if name in ("two", "twoknown"):
        return {"key": f"k{op.key // 2}", "bucket" if name == "two" else "topic": f"b{op.key % 2}"}
    return {name: key_of(op, ways)}


MISSING: Dict[str, Callable[[str], Dict[str, Any]]] = {
    "empty": lambda name: {name: ""},
    "zero": lambda name: {name: 0},
    "found": lambda name: {name: 0, "found": False},
    "None": lambda name: {name: "None"},
}


def missing_fields(op: Op, name: str, ways: Variations) -> Dict[str, Any]:
    """The answer to a read of a missing key, in this field; none where it is null."""
    if op.name != "read" or op.answer is not None or "missing" not in ways:
        return {}
    return MISSING[ways["missing"]](name)


def options_of(ways: Variations) -> List[str]:
    """The user's words about values, if the variation has them: the answer of a missing key, and that a number and its text are one."""
    words: List[str] = []
    absent = "" if ways.get("gozero") else {"empty": "", "zero": "0", "None": "None"}.get(ways.get("missing", ""))
    if absent is not None and not (absent == "0" and ways.get("values") == "zero"):
        words += ["--absent", absent]
    if ways.get("stringly") or ways.get("alikekeys") or ways.get("values") == "mixfloat":
        words += ["--values", "number"]
    return words


WORDS: Dict[str, Dict[str, str]] = {
    "plain": {},
    "kv": {"read": "get", "write": "put"},
    "upper": {name: name.upper() for name in ("read", "write", "cas", "enqueue", "dequeue", "add", "acquire", "release")},
    "lock": {"acquire": "lock", "release": "unlock", "read": "load", "write": "store", "enqueue": "send", "dequeue": "receive",
             "cas": "compare_and_set"},
    "pushpop": {"enqueue": "push", "dequeue": "pop"},
}


def word_of(op: Op, ways: Variations) -> str:
    return WORDS[ways.get("words", "plain")].get(op.name, op.name)
