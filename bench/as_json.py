#!/usr/bin/env python3
"""Prints the history of registers on standard input as JSON lines: `as_json.py events` or `as_json.py operations`.

An event a line, or an operation with its call and return. Keys are texts, and events are a microsecond apart.
"""
import json
import re
import sys
from typing import Dict, Iterator, Tuple

EVENT = re.compile(r"\{:type :(\w+), :process (\d+), :f :(\w+), :value \[(\d+) (nil|-?\d+)\]")
Begun = Tuple[int, object]


def events() -> Iterator[Tuple[int, str, int, str, str, object]]:
    """The time, the type, the process, the operation, the key and the part of each event."""
    for time, line in enumerate(sys.stdin, 1):
        found = EVENT.match(line)
        assert found is not None, line
        kind, process, name, key, part = found.groups()
        yield 1000 * time, kind, int(process), name, f"key-{key}", None if part == "nil" else int(part)


def main() -> None:
    begun: Dict[int, Begun] = {}
    for time, kind, process, name, key, part in events():
        if sys.argv[1] == "events":
            print(json.dumps({"time": time, "process": process, "type": kind, "f": name, "key": key, "value": part}))
        elif kind == "invoke":
            begun[process] = time, part
        else:
            call, value = begun.pop(process)
            row = {"client": process, "op": name, "key": key, "value": part if kind == "ok" else value, "call_ns": call, "return_ns": time,
                   "outcome": kind}
            print(json.dumps(row))


if __name__ == "__main__":
    main()
