#!/usr/bin/env python3
"""Compares jepmon.wide with `jepmon check` on random histories of one key that check decides: how a key stands, and since when. Check judges each
key by the plain kind, and by the wide kind of its model if the program has it. If both decide, they must agree too.

usage: tests/fuzz_wide.py COUNT [FIRST]     JEPMON names the program
"""
import collections
import pathlib
import sys
import time
from typing import Dict, List

TOP = pathlib.Path(__file__).resolve().parents[1]
sys.path[:0] = [str(TOP), str(TOP / "python")]

from jepmon.history import Event, operations  # noqa: E402
from jepmon.history.kinds import BUDGETS, MODELS  # noqa: E402
from jepmon.program import KeyLine, Options  # noqa: E402
from jepmon.wide import Clock, decide  # noqa: E402
from tests.python.fuzz import TOGETHER, batches, checked  # noqa: E402
from tests.python.histories import Way, text_of  # noqa: E402

SECONDS = 60.0  # of the processor, that one key may take
WAYS = [
    Way(), Way(events=40, clients=6, wrong=0.02), Way(events=30, clients=5, values=2, wrong=0.05),
    Way(events=60, clients=5, values=100, wrong=0.02), Way(events=16, clients=8, values=2, crash=0.3, wrong=0.05),
    Way(events=50, clients=4, values=3, crash=0.02), Way(events=24, clients=4, values=1, wrong=0.1, crash=0.2),
    Way(events=36, clients=7, values=100, crash=0.05, wrong=0.03), Way(events=20, clients=4, alien=0.02, wrong=0.05),
    Way(events=80, clients=6, values=5, crash=0.02, wrong=0.01, patience=0.8),
]


def main() -> int:
    count, first = int(sys.argv[1]), int(sys.argv[2]) if len(sys.argv) > 2 else 0
    seen: "collections.Counter[str]" = collections.Counter()
    for seed in range(first, first - -count // (TOGETHER * len(MODELS))):
        for model in MODELS:
            for clients, histories in batches(model, seed, WAYS[seed % len(WAYS):] + WAYS[:seed % len(WAYS)], TOGETHER):
                compare(seed, histories, Options(clients, model, BUDGETS[-1]), seen)
        if (seed - first + 1) % 10 == 0:
            print(f"{seen.total() if hasattr(seen, 'total') else sum(seen.values())} histories, {wrong_of(seen)} differ", flush=True)
    for what, number in sorted(seen.items()):
        print(f"{number:6} {what}")
    print(f"{sum(seen.values())} histories, {wrong_of(seen)} differ")
    return 1 if wrong_of(seen) else 0


def compare(seed: int, histories: Dict[int, List[Event]], options: Options, seen: "collections.Counter[str]") -> None:
    plain: Dict[int, KeyLine] = checked(histories, options._replace(by_ends=True))
    wide = checked(histories, options) if options.is_wide() else plain
    for key, events in histories.items():
        found = decide(operations(events, options.concurrency), options, Clock(SECONDS, time.process_time))
        said = "not decided" if found is None else "alive" if found.index is None else f"dead {found.index}"
        told = [line.status if line.index is None else f"{line.status} {line.index}" for line in (plain[key], wide[key])]
        decided = {each for each in (said, *told) if each != "not decided" and not each.startswith("over")}
        if len(decided) <= 1:
            seen[f"{options.model}: {', '.join(each.split()[0] for each in told)}, {said.split()[0] if found is not None else said}"] += 1
            continue
        seen[f"{options.model}: DIFFERS"] += 1
        print(f"seed {seed} {options.model} key {key}: check says {told[0]}, {told[1]} as {wide[key].kind}, found was {said}\n"
              f"{text_of(events).decode()}", flush=True)


def wrong_of(seen: "collections.Counter[str]") -> int:
    return sum(number for what, number in seen.items() if what.endswith("DIFFERS"))


if __name__ == "__main__":
    sys.exit(main())
