"""The words by which rows of JSON, CSV and logs are read: names of fields, operations, outcomes, units. docs/FORMATS.md shows them.

Names of fields and words are compared without capital letters, `_`, `-`, `.`, `:` and blanks.
"""
from __future__ import annotations

import functools
from typing import Dict, List, NamedTuple, Optional, Sequence, Tuple

PLAIN = str.maketrans("", "", "_-. :\0")  # removes the characters that are not compared; \0 marks the name of a member of an object

UNITS = {"s": 10**9, "ms": 10**6, "us": 10**3, "ns": 1}  # the nanoseconds of each unit
UNIT_WORDS = {"sec": "s", "secs": "s", "seconds": "s", "ms": "ms", "msec": "ms", "millis": "ms", "milliseconds": "ms", "us": "us",
              "usec": "us", "micros": "us", "microseconds": "us", "ns": "ns", "nsec": "ns", "nanos": "ns", "nanoseconds": "ns",
              "unixnano": "ns"}

# The names of fields. A time may have a unit behind its name, and `time`, `at`, `ts` or `timestamp` between the two.
FIELDS: Dict[str, Sequence[str]] = {
    "client": ("process", "client", "clientid", "worker", "workerid", "thread", "threadid", "session", "sessionid", "proc", "pid"),
    "type": ("type", "kind", "event", "eventtype", "phase"),
    "f": ("f", "op", "operation", "function", "func", "method", "command", "cmd", "action", "name"),
    "key": ("key", "k", "object", "register", "queue", "lock", "mutex", "topic"),
    "value": ("value", "v", "val", "arg", "argument", "element", "item", "message", "member"),
    "old": ("old", "expected", "expect", "from"),
    "new": ("new", "desired", "update", "to"),
    "answer": ("answer", "ret", "returned", "returnvalue", "result", "output", "out", "response", "reply", "got"),
    "outcome": ("outcome", "status", "state", "code", "statuscode", "httpstatus"),
    "ok": ("ok", "success", "succeeded", "acknowledged", "acked", "applied", "committed"),
    "failed": ("failed", "rejected", "aborted"),
    "unknown": ("unknown", "timeout", "timedout", "indeterminate"),
    "error": ("error", "err", "exception", "errormessage", "errmsg", "exc"),
    "found": ("found", "exists", "hit"),
    "id": ("id", "opid", "operationid"),
    "index": ("index",),
}
TIMES: Dict[str, Sequence[str]] = {
    "time": ("time", "timestamp", "ts", "at", "t"),
    "call": ("call", "start", "invoke", "begin", "invocation", "sent", "started", "invoked"),
    "return": ("return", "end", "complete", "finish", "completion", "received", "ended", "finished", "completed", "stop", "stopped"),
    "duration": ("duration", "elapsed", "latency", "took"),
}
BETWEEN = ("", "time", "at", "ts", "timestamp", "timeunix", "unix", "in", "epoch")
MEANINGS = (*FIELDS, *TIMES)
# Fields without a meaning for the history.
HARMLESS = frozenset((
    "node", "host", "hostname", "server", "address", "addr", "port", "level", "severity", "logger", "caller", "source", "file", "linenumber",
    "traceid", "spanid", "parentspanid", "parentid", "requestid", "tracestate", "flags", "attempt", "attempts", "retries", "retry", "seq",
    "sequence", "comment", "note", "service", "servicename", "version", "droppedattributescount"))
# Fields that may distinguish several runs, or may be a part of the key. If they vary, a refusal asks which.
RUNS = frozenset(("run", "runid", "test", "testid", "testname", "trial"))
PARTS = frozenset(("db", "database", "table", "namespace", "schema", "keyspace", "bucket", "collection", "partition", "shard"))
# Fields with an object, whose members are read as if they were fields of the row.
CONTAINERS = frozenset(("input", "request", "req", "args", "params", "attributes", "attrs", "tags", "labels", "fields", "properties"))
ARGUMENTS = ("input", "request", "args")  # fields that are the value if they hold no object

OPERATIONS = {
    "read": "read", "get": "read", "r": "read", "load": "read",
    "write": "write", "put": "write", "set": "write", "w": "write", "store": "write",
    "cas": "cas", "compareandset": "cas", "compareandswap": "cas", "compareexchange": "cas",
    "acquire": "acquire", "lock": "acquire", "trylock": "acquire", "release": "release", "unlock": "release",
    "enqueue": "enqueue", "send": "enqueue", "offer": "enqueue", "produce": "enqueue", "publish": "enqueue",
    "dequeue": "dequeue", "receive": "dequeue", "poll": "dequeue", "consume": "dequeue", "take": "dequeue",
    "add": "add",
    "delete": "delete", "del": "delete",
}
# Operations that a queue and a stack have; they are read only if the user states the model.
OF_STACKS = {"push": "enqueue", "pop": "dequeue"}
TYPES = {
    "invoke": "invoke", "invocation": "invoke", "call": "invoke", "begin": "invoke", "start": "invoke", "request": "invoke",
    "ok": "ok", "return": "ok", "complete": "ok", "completed": "ok", "end": "ok", "response": "ok", "success": "ok", "done": "ok",
    "statuscodeok": "ok", "statuscodeerror": "info",
    "fail": "fail", "failed": "fail", "failure": "fail",
    "info": "info", "timeout": "info", "timedout": "info", "unknown": "info", "crash": "info", "crashed": "info",
    "indeterminate": "info", "error": "info",
}
TRUE, FALSE = ("true", "t", "yes", "y", "1", "1.0"), ("false", "f", "no", "n", "0", "0.0")
NO_ERROR = ("", "nil", "<nil>", "null", "none", "ok", "no error", "success", "undefined", "nan", "false", "0")
ABSENT = ("", "nil", "None", "NULL", "null", "<nil>")  # cells that hold no value


class Slot(NamedTuple):
    """The meaning of a field."""

    meaning: str
    unit: Optional[str]  # the unit of a time, if the name of the field says it
    rank: int  # of two fields with one meaning, messages name the one with the lower rank first


@functools.lru_cache(maxsize=1 << 16)
def plain(name: str) -> str:
    """Returns the form of a name or a word in which it is compared."""
    return name.translate(PLAIN).lower()


@functools.lru_cache(maxsize=1 << 12)
def slot_of(name: str) -> Optional[Slot]:
    """The meaning of a field of this name. None if the name has no meaning. The unit of seconds is _s behind a time."""
    if len(name) > 2 and name[-1] == "s" and name[-2] in "_-. ":
        slot = _slots().get(plain(name[:-2]))
        return slot._replace(unit="s") if slot is not None and slot.meaning in TIMES and slot.unit is None else None
    return _slots().get(plain(name))


@functools.lru_cache(maxsize=1)
def _slots() -> Dict[str, Slot]:
    slots = {name: Slot(meaning, None, rank) for meaning, names in FIELDS.items() for rank, name in enumerate(names)}
    for meaning, names in TIMES.items():
        for rank, name in enumerate(names):
            for between in BETWEEN if meaning != "duration" else ("", "in"):
                for unit in ("", *UNIT_WORDS):
                    if between != "in" or unit:
                        slots.setdefault(name + between + unit, Slot(meaning, UNIT_WORDS.get(unit), rank))
    return slots


def both_of(word: str) -> Optional[Tuple[str, str]]:
    """The operation and the type in one word, such as acquire_ok."""
    for place in range(len(word) - 1, 0, -1):
        name, kind = plain(word[:place]), plain(word[place:])
        if word[place] in "_-. :" and name in OPERATIONS and kind in TYPES:
            return OPERATIONS[name], TYPES[kind]
    return None


def tables() -> List[str]:
    """The tables of docs/FORMATS.md."""
    lines = ["| Meaning | Names of the field |", "|---|---|"]
    lines += [f"| {meaning} | {_listed(names)} |" for meaning, names in {**FIELDS, **TIMES}.items()]
    lines += [f"| none: the tool ignores the field | {_listed(sorted(HARMLESS))} |",
              f"| none: the file may have several runs, if the field varies | {_listed(sorted(RUNS))} |",
              f"| none: the field may be a part of the key, if it varies | {_listed(sorted(PARTS))} |", "", "| Operation | Words |", "|---|---|"]
    lines += _by_meaning({**OPERATIONS, **{word: f"{name}, if --model is given" for word, name in OF_STACKS.items()}})
    return [*lines, "", "| Type of an event, outcome of an operation | Words |", "|---|---|", *_by_meaning(TYPES)]


def _by_meaning(words: Dict[str, str]) -> List[str]:
    meanings = list(dict.fromkeys(words.values()))
    return [f"| {meaning} | {_listed([word for word in words if words[word] == meaning])} |" for meaning in meanings]


def _listed(names: Sequence[str]) -> str:
    return ", ".join(f"`{name}`" for name in names)
