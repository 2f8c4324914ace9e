#!/usr/bin/env python3
"""Random live tests of many threads. A run's verdict is that of its folder and its log when they are judged again; and it is the right
verdict, if that is known.

usage: tests/fuzz_live.py SECONDS [FIRST]     JEPMON names the program
"""
import collections
import pathlib
import sys
import time
from typing import Counter, Dict, Optional

TOP = pathlib.Path(__file__).resolve().parents[1]
sys.path[:0] = [str(TOP), str(TOP / "python")]

from tests.python.live_runs import case_of, fault_of, fault_of_long  # noqa: E402
from tests.python.live_truth import Live, of_long_monitor, of_monitor  # noqa: E402


def main() -> int:
    end, seed = time.monotonic() + float(sys.argv[1]), int(sys.argv[2]) if len(sys.argv) > 2 else 0
    seen: "Counter[str]" = collections.Counter()
    wrong = 0
    while time.monotonic() < end:
        for name, fault in faults_of(seed, seen).items():
            seen["differs" if fault else "agrees"] += 1
            wrong += fault is not None
            if fault:
                print(f"seed {seed}, {name}: {fault}", flush=True)
        seed += 1
    print(f"seeds below {seed}: {dict(seen)}")
    return 1 if wrong else 0


def faults_of(seed: int, seen: "Counter[str]") -> Dict[str, Optional[str]]:
    case = case_of(seed)
    live = {"monitor": of_monitor(seed), "long monitor": of_long_monitor(seed)}
    for name, run in live.items():
        seen[f"{name}: {run.right}, {run.got}"] += 1
    return {"raise": fault_of(case, False), "drop": fault_of(case, True), "long": fault_of_long(case),
            **{name: said(run) for name, run in live.items()}}


def said(live: Live) -> Optional[str]:
    return f"the run said {live.got}, and right is {live.right}" if live.is_wrong else None


if __name__ == "__main__":
    sys.exit(main())
