#!/usr/bin/env python3
"""Times the commands of a trial, by the program `bench`: `trials.py [RUNS] [ROUNDS]`, 7 runs of 2,000 rounds unless given.

Prints the median of the runs' means in nanoseconds: of a draw, a serve and a completion, for stores of 3 and 7 replicas on
which 1, 64 and 4,096 keys were written before.
"""
import pathlib
import statistics
import subprocess
import sys

PROGRAM = pathlib.Path(__file__).resolve().parent.parent / "crates" / "bench" / "out" / "bench"


def run(rounds):
    """The means of one run: draw, serve and completion, by the numbers of replicas and keys."""
    text = subprocess.run([str(PROGRAM), "trials", str(rounds)], capture_output=True, text=True, check=True).stdout
    means = {}
    for line in text.splitlines():
        replicas, keys, *rest = line.split()
        means[replicas, keys] = [float(mean) for mean in rest[1::2]]
    return means


def main():
    runs = int(sys.argv[1]) if len(sys.argv) > 1 else 7
    rounds = int(sys.argv[2]) if len(sys.argv) > 2 else 2000
    every = [run(rounds) for _ in range(runs)]
    print("| Replicas | Keys | Draw | Serve | Completion |")
    print("|---|---|---|---|---|")
    for replicas, keys in every[0]:
        means = [f"{statistics.median(one[replicas, keys][at] for one in every):,.0f}" for at in range(3)]
        print(f"| {replicas} | {int(keys):,} | {' | '.join(means)} |")


if __name__ == "__main__":
    main()
