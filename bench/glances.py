#!/usr/bin/env python3
"""Times a glance and a call from inside, by the program `bench`: on a board, and under a plain lock.

Prints the median of several runs for each number of threads that glance, and for each call of another thread meanwhile. Then it prints that
of a call alone, which asks for the verdict, on boards of several numbers of seats.
"""
import pathlib
import statistics
import subprocess
import sys

PROGRAM = pathlib.Path(__file__).resolve().parent.parent / "crates" / "bench" / "out" / "bench"


def run(milliseconds):
    """The figures of one run, in nanoseconds: a glance and a call on a board, then under a lock.

    They are by the number of readers and the calls beside them, or by `seats` and their number.
    """
    text = subprocess.run([str(PROGRAM), "glance", str(milliseconds)], capture_output=True, text=True, check=True).stdout
    figures = {}
    for line in text.splitlines():
        readers, calls, _, *rest = line.split()
        figures[readers, calls] = [rest[0], rest[1], rest[3], rest[4]]
    return figures


def median(texts):
    return f"{statistics.median(map(float, texts)):,.0f}" if "-" not in texts else "-"


def main():
    runs = int(sys.argv[1]) if len(sys.argv) > 1 else 7
    milliseconds = int(sys.argv[2]) if len(sys.argv) > 2 else 200
    every = [run(milliseconds) for _ in range(runs)]
    print("| Threads that glance | One more thread calls | Glance, board | Glance, lock | Call, board | Call, lock |")
    print("|---|---|---|---|---|---|")
    for readers, calls in every[0]:
        if readers == "seats":
            continue
        board_glance, board_call, lock_glance, lock_call = (median([run[readers, calls][i] for run in every]) for i in range(4))
        print(f"| {readers} | {calls} | {board_glance} | {lock_glance} | {board_call} | {lock_call} |")
    print()
    print("| Seats | Call, board |")
    print("|---|---|")
    for readers, seats in every[0]:
        if readers == "seats":
            print(f"| {seats} | {median([run[readers, seats][1] for run in every])} |")


if __name__ == "__main__":
    main()
