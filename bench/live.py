#!/usr/bin/env python3
"""Operations a second that a live test in Python does: `live.py [SECONDS] [ROUNDS]`, 2 seconds and 5 rounds unless given.

Clients, each a thread, read and write 500 registers that lie in a dict of this process, so that nothing but the Monitor takes time: half of
the operations are writes. For 1, 5 and 50 threads it prints the median of the rounds and the least and the most of them. For the median
round it prints the processor time of an operation in this process and in jepmon. The rounds of the numbers of threads take turns. With
`--package DIR` it measures the package `jepmon` that lies in that folder, as one of an earlier commit.
"""
import argparse
import os
import pathlib
import random
import statistics
import sys
import time

TOP = pathlib.Path(__file__).resolve().parent.parent
KEYS = 500
THREADS = (1, 5, 50)


def words():
    parser = argparse.ArgumentParser(description=__doc__, formatter_class=argparse.RawDescriptionHelpFormatter)
    parser.add_argument("seconds", nargs="?", type=float, default=2.0)
    parser.add_argument("rounds", nargs="?", type=int, default=5)
    parser.add_argument("--package", metavar="DIR", default=str(TOP / "python"), help="the folder in which the package jepmon lies")
    parser.add_argument("--jepmon", metavar="PROGRAM", help="its path, where it is not that of this repository")
    return parser.parse_args()


def round_of(monitor, threads, seconds):
    """Operations a second, and the processor time of one in microseconds: in Python, and in jepmon."""
    for key in range(KEYS):
        monitor.begin(key)
    store, counts, end = {}, [0] * threads, time.monotonic() + seconds

    def client(number):
        draws, count = random.Random(number), 0
        while time.monotonic() < end:
            key = draws.randrange(KEYS)
            if draws.random() < 0.5:
                with monitor.write(key, number):
                    store[key] = number
            else:
                with monitor.read(key) as op:
                    op.value = store.get(key)
            count += 1
        counts[number] = count

    before, begin = os.times(), time.monotonic()
    monitor.run(client, threads)
    after, done = os.times(), sum(counts)
    took = time.monotonic() - begin
    verdict = monitor.close()
    ended = os.times()
    assert verdict == "legal", verdict
    used = [after.user + after.system - before.user - before.system,
            ended.children_user + ended.children_system - before.children_user - before.children_system]
    return (done / took, *(seconds * 1e6 / done for seconds in used))


def main():
    given = words()
    sys.path.insert(0, given.package)
    from jepmon import Monitor

    rounds = {threads: [] for threads in THREADS}
    for _ in range(given.rounds):
        for threads in THREADS:
            rounds[threads].append(round_of(Monitor(given.jepmon, budget=65536), threads, given.seconds))
    print("| Threads | Operations a second, median | Least | Most | Python, us an operation | jepmon, us |")
    print("|---|---|---|---|---|---|")
    for threads, found in rounds.items():
        rates = sorted(rate for rate, _, _ in found)
        median = statistics.median_low(rates)
        python, program = next((python, program) for rate, python, program in found if rate == median)
        print(f"| {threads} | {median:,.0f} | {rates[0]:,.0f} | {rates[-1]:,.0f} | {python:.0f} | {program:.0f} |")


if __name__ == "__main__":
    main()
