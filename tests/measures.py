#!/usr/bin/env python3
"""Runs the measuring program, each of its tables for as short as it can be. Every row must be there, with a number in each place that can
have one, and the status must be 0. The numbers themselves are for docs/PERFORMANCE.md."""
import os
import pathlib
import re
import subprocess
import sys

from case_loop import run_cases

TOP = pathlib.Path(__file__).resolve().parent.parent
BENCH = pathlib.Path(os.environ.get("BENCH", TOP / "crates" / "bench" / "out" / "bench"))
NUMBER = r"(?:\d+(?:\.\d)?|-)"

# Each table: its words, how many rows it has, and what a row is.
TABLES = {
    "glances": ("glance 1", 18, rf"\d+ (?:nothing|verdicts|writes|reads) board {NUMBER} {NUMBER} lock {NUMBER} {NUMBER}"
                rf"|seats \d+ board - {NUMBER} lock - -"),
    "trials": ("trials 1", 6, rf"\d \d+ draw {NUMBER} serve {NUMBER} finish {NUMBER}"),
    "loads": ("workers 1", 3, rf"\d load {NUMBER}"),
}


def run_table(words, count, row):
    ran = subprocess.run([str(BENCH), *words.split()], capture_output=True, text=True, timeout=120)
    rows = ran.stdout.splitlines()
    faults = [f"the row {line!r}" for line in rows if not re.fullmatch(row, line)]
    if (ran.returncode, len(rows), ran.stderr) != (0, count, ""):
        faults.append(f"status {ran.returncode}, {len(rows)} rows, {ran.stderr!r}")
    return faults


def main():
    if not BENCH.exists():
        print(f"{BENCH} is not there: the gate builds it, and so does rt run in crates/bench")
        print("0 passed, 1 failed")
        return 1
    return run_cases("table", [(name, lambda table=table: run_table(*table)) for name, table in TABLES.items()], sys.argv[1:])


if __name__ == "__main__":
    sys.exit(main())
