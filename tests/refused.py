#!/usr/bin/env python3
"""Refuses each allocation of the program in turn, and looks at what is left of the run.

For each n from 1 to the last allocation a run is made again in which the nth one is refused (tests/refuse.py). Then `script` must have
written a beginning of the replies and ended with status 3. `check`, `confirm` and `run` must have written the line of out of memory, or
nothing if there was no memory for this line. Or the run was as with memory, if the program does not need the allocation.

The program `allocation_failure_tests` makes the calls that the program does not make one by one. After a refused allocation it makes the call once more,
compares the visible state, and goes on. So it writes the same as with memory, and one line more.

No run may end otherwise. A case has failed if fewer allocations were refused than are known of this case. The last line says how many
passed and failed.
"""
import concurrent.futures
import os
import pathlib
import sys

import refuse
from case_loop import given, words
from program import PROGRAM, TOP

# Cases of tests/cases, each with the least number of allocations that are refused.
SCRIPTS = {
    "set_members": 100, "set_members_by_model": 100, "model_changes": 100, "five_ends": 100, "illegal_beside_blown": 100,
    "rewind_brings_processes_back": 100, "refusals_in_order": 100, "unreadable_places": 20, "open_reads_within_their_ends": 150,
    "products_of_large_numbers": 200, "wide_register_and_back": 100, "wide_set_answers_crossed": 100,
}
CHECKS = {"check_finds_a_stale_read": 50, "check_of_failed_and_crashed": 50, "confirm_of_an_order_for_each_key": 50,
          "confirm_of_a_dequeue_by_its_value": 50}

# Words of runs of one client, whose report the seed tells; more clients come in any order.
RUNS = {"run --ops 4 --concurrency 1": 50, "run --ops 10 --concurrency 1 --faults on --model set": 50}

# The arguments of the program of single calls.
CALLS_PROGRAM = pathlib.Path(os.environ.get("REFUSALS", TOP / "crates/allocation_failure_tests/out/allocation_failure_tests"))
CALLS = {"texts": 100, "events": 80, "models": 60, "budgets": 80, "rewinds": 80, "board": 80, "load": 50, "trial": 60}


def is_script_cut_short(got, want):
    return got.status == 3 and want.startswith(got.written)


def is_line_of_no_memory(got, want):
    return got.status == 3 and got.written in (b"", b"refused 13 NoMemory\n")


def is_call_made_again(got, want):
    if got.status == 1 and not got.written:
        return True  # its words were not read
    lines = got.written.splitlines(keepends=True)
    return got.status == 0 and lines.count(b"no memory\n") == 1 and b"".join(line for line in lines if line != b"no memory\n") == want


def refused_in_turn(program, words, given, is_refused):
    """With each allocation refused in turn: how many refusals told, how many runs were as with memory, and what was wrong."""
    whole = refuse.run(program, words, given, 0)
    refused, spared, faults = 0, 0, []
    for nth in range(1, whole.allocations + 1):
        got = refuse.run(program, words, given, nth)
        if (got.status, got.written) == (whole.status, whole.written):
            spared += 1
        elif is_refused(got, whole.written):
            refused += 1
        else:
            faults.append(f"with allocation {nth} refused it ended with {got.status}, {got.written[-200:]!r}")
    return refused, spared, faults


def of_case(name, is_refused):
    case = TOP / "tests" / "cases" / name
    return PROGRAM, words(case / "args"), given(case / "stdin"), is_refused


def all_runs():
    """Each run by its name: its arguments for `refused_in_turn`, and how many refusals there are at least."""
    runs = {f"case {name}": (of_case(name, is_script_cut_short), least) for name, least in SCRIPTS.items()}
    runs |= {f"case {name}": (of_case(name, is_line_of_no_memory), least) for name, least in CHECKS.items()}
    runs |= {words: ((PROGRAM, words.split(), b"", is_line_of_no_memory), least) for words, least in RUNS.items()}
    runs |= {f"calls of {name}": ((CALLS_PROGRAM, [name], b"", is_call_made_again), least) for name, least in CALLS.items()}
    return runs


def tried(run):
    (arguments, least) = run
    try:
        refused, spared, faults = refused_in_turn(*arguments)
    except refuse.CannotTrace as why:
        return 0, 0, [f"this machine does not let a program be traced: {why}"]
    if refused < least:
        faults.append(f"fewer than {least} allocations were refused")
    return refused, spared, faults


def main():
    os.chdir(TOP)
    if not CALLS_PROGRAM.exists():
        print(f"{CALLS_PROGRAM} is not there: the gate builds it, and so does rt run in crates/allocation_failure_tests")
        print("0 passed, 1 failed")
        return 1
    runs, failed = all_runs(), 0
    with concurrent.futures.ProcessPoolExecutor() as pool:
        for name, (refused, spared, faults) in zip(runs, pool.map(tried, runs.values())):
            print(f"{name}: {refused} allocations refused, {spared} not needed: {'FAILED' if faults else 'ok'}")
            for fault in faults[:5]:
                print(f"  {fault}")
            failed += bool(faults)
    print(f"{len(runs) - failed} passed, {failed} failed")
    return 1 if failed else 0


if __name__ == "__main__":
    sys.exit(main())
