#!/usr/bin/env python3
"""Compares jepmon.shards with plain `jepmon check` on random histories within its limits: report and status, byte for byte.

usage: tests/fuzz_shards.py COUNT [FIRST]     JEPMON names the program
"""
import collections
import pathlib
import sys

TOP = pathlib.Path(__file__).resolve().parents[1]
sys.path[:0] = [str(TOP), str(TOP / "python")]

from jepmon import program, shards  # noqa: E402
from tests.python.shard_histories import case_of  # noqa: E402


def main() -> int:
    count, first = int(sys.argv[1]), int(sys.argv[2]) if len(sys.argv) > 2 else 0
    seen: "collections.Counter[str]" = collections.Counter()
    wrong = 0
    for seed in range(first, first + count):
        case = case_of(seed)
        told = program.check(case.text, case.options)
        try:
            found = shards.check(case.text, case.options, 1, sizes=case.sizes)
            same = (told.text, told.status, told.keys, told.verdict) == (found.text, found.status, found.keys, found.verdict)
            said = found.verdict
        except shards.ShardsError as fault:
            same, said = False, repr(fault)
        seen[f"{case.options.model} {' '.join(told.verdict.split()[:2 if told.word == 'refused' else 1])}"] += 1
        if not same:
            wrong += 1
            print(f"seed {seed}: check says {told.verdict}, shards say {said}", flush=True)
        if (seed - first + 1) % 1000 == 0:
            print(f"{seed - first + 1} histories, {wrong} differ", flush=True)
    for what, number in sorted(seen.items()):
        print(f"{number:6} {what}")
    print(f"{count} histories, {wrong} differ")
    return 1 if wrong else 0


if __name__ == "__main__":
    sys.exit(main())
