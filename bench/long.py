#!/usr/bin/env python3
"""Prints a long history of registers: `long.py EVENTS KEYS CLIENTS SEED`.

Each client writes and reads in turn, on keys drawn at random, one in ten of them from a hundredth of all keys. One operation in a thousand
times out, and half of the writes that do have taken place; one in a thousand fails.
"""
import random
import sys
from typing import Dict, List, Optional, Tuple


def part_of(value: Optional[int]) -> str:
    return "nil" if value is None else str(value)


def main() -> None:
    events, keys, clients, seed = map(int, sys.argv[1:5])
    draw = random.Random(seed).random
    held: Dict[int, int] = {}
    process = list(range(clients))
    running: List[Optional[Tuple[str, int, Optional[int]]]] = [None] * clients
    lines: List[str] = []
    for _ in range(events):
        client = int(draw() * clients)
        operation, now, kind = running[client], process[client], "invoke"
        if operation is None:
            chance = draw()
            key = int(chance * 10 * max(1, keys // 100)) if chance < 0.1 else int(draw() * keys)
            value: Optional[int] = int(draw() * 1000) if draw() < 0.5 else None
            name = "read" if value is None else "write"
            running[client] = name, key, value
        else:
            name, key, value = operation
            running[client] = None
            chance = draw()
            kind = "info" if chance < 0.001 else "fail" if chance < 0.002 else "ok"
            if value is not None and (kind == "ok" or kind == "info" and draw() < 0.5):
                held[key] = value
            elif kind == "ok" and value is None:
                value = held.get(key)
            process[client] += clients if kind == "info" else 0
        lines.append(f"{{:type :{kind}, :process {now}, :f :{name}, :value [{key} {part_of(value)}]}}\n")
        if len(lines) >= 100_000:
            sys.stdout.write("".join(lines))
            lines.clear()
    sys.stdout.write("".join(lines))


if __name__ == "__main__":
    main()
