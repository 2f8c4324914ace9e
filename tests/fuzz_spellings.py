#!/usr/bin/env python3
"""Compares the program's answers for random histories whose events are spelled plainly with those for the same events in other spellings.
It compares the replies of `script`, and the report of `check` and its status, byte for byte.

usage: tests/fuzz_spellings.py COUNT [FIRST]     JEPMON names the program
"""
import collections
import pathlib
import random
import subprocess
import sys
from typing import List, Tuple

TOP = pathlib.Path(__file__).resolve().parents[1]
sys.path[:0] = [str(TOP), str(TOP / "python")]

from jepmon import program  # noqa: E402
from tests.python.shard_histories import KEY_SETS, OPERATIONS, events_of  # noqa: E402
from tests.python.spellings import NO_TEXT, Spelled  # noqa: E402


def replies(lines: List[str], options: program.Options) -> Tuple[bytes, int]:
    words = [program.find_program(), "script", *options.words()]
    ran = subprocess.run(words, input="\n".join(lines).encode() + b"\n", stdout=subprocess.PIPE, stderr=subprocess.DEVNULL, timeout=120)
    return ran.stdout, ran.returncode


def report(lines: List[str], options: program.Options) -> Tuple[str, int]:
    told = program.check("\n".join(lines).encode() + b"\n", options)
    return told.text, told.status


def faults_of(seed: int, seen: "collections.Counter[str]") -> List[str]:
    """Where the program says something else of the other spellings."""
    chance = random.Random(seed)
    model = list(OPERATIONS)[seed % len(OPERATIONS)]
    threads = chance.choice((1, 2, 3, 5))
    told = events_of(model, chance, threads, chance.choice((3, 10, 40, 80)), chance.choice(KEY_SETS)(chance), chance.choice((2, 20)))
    lines = Spelled(told, chance)
    options = program.Options(threads, model)
    found = []
    plainly, otherwise = replies(lines.plain, options), replies(lines.other, options)
    for place, (reply, other) in enumerate(zip(plainly[0].split(b"\n"), otherwise[0].split(b"\n"))):
        if reply != other:
            found.append(f"seed {seed}: script says {reply!r} and {other!r} of {lines.other[place]}")
            break
    if plainly != otherwise and not found:
        found.append(f"seed {seed}: script says more, or ends otherwise")
    kept = [place for place, line in enumerate(lines.plain) if line != NO_TEXT]
    first, second = (report([side[place] for place in kept], options) for side in (lines.plain, lines.other))
    if first != second:
        found.append(f"seed {seed}: check says {first} and {second}")
    seen[f"{model} {first[0].splitlines()[-1].split()[0]}"] += 1
    return found


def main() -> int:
    count, first = int(sys.argv[1]), int(sys.argv[2]) if len(sys.argv) > 2 else 0
    seen: "collections.Counter[str]" = collections.Counter()
    wrong = 0
    for seed in range(first, first + count):
        faults = faults_of(seed, seen)
        wrong += bool(faults)
        for fault in faults:
            print(fault, flush=True)
    for what, number in sorted(seen.items()):
        print(f"{number:6} {what}")
    print(f"{count} histories, {wrong} differ")
    return 1 if wrong else 0


if __name__ == "__main__":
    sys.exit(main())
