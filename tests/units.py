#!/usr/bin/env python3
"""Runs the tests of the Python package, which lie in tests/python, and mypy over the package, where it is installed. Two processes run
the tests, a module at a time, since many tests wait for other processes; mypy runs beside them. Ends with 'N passed, M failed', or
'N passed, M failed, K skipped' where what a test needs is not installed. With words, it runs the tests of these modules alone, as test_edn.
"""
import concurrent.futures
import os
import pathlib
import shutil
import subprocess
import sys
import unittest
from typing import List, Optional, Tuple

TOP = pathlib.Path(__file__).resolve().parent.parent
TESTS = TOP / "tests" / "python"
TYPED = ["python/jepmon", "python/build"]
LIMIT = 600  # seconds for mypy
PROCESSES = 2


Counts = Tuple[int, int, int]  # how many passed, failed and were skipped


def modules() -> List[str]:
    """All modules of tests, those of the runner first, which wait the most."""
    names = sorted(path.stem for path in TESTS.glob("test_*.py"))
    return sorted(names, key=lambda name: not name.startswith("test_testing"))


def run_tests(name: str) -> Counts:
    """Of one module."""
    tests = unittest.TestLoader().loadTestsFromName(f"tests.python.{name}")
    result = unittest.TextTestRunner(stream=sys.stdout, verbosity=1).run(tests)
    failed = len(result.failures) + len(result.errors) + len(result.unexpectedSuccesses)
    skipped = len(result.skipped)
    for test, reason in result.skipped:
        print(f"skipped: {test}: {reason}")
    sys.stdout.flush()
    return max(result.testsRun - failed - skipped, 0), failed, skipped


def begin_mypy() -> "Optional[subprocess.Popen[bytes]]":
    mypy = shutil.which("mypy")
    return None if mypy is None else subprocess.Popen([mypy, "--strict", "--no-incremental", *TYPED], cwd=TOP)


def end_mypy(mypy: "Optional[subprocess.Popen[bytes]]") -> Counts:
    if mypy is None:
        print(f"skipped: the types of {' and '.join(TYPED)}: mypy is not installed")
        return 0, 0, 1
    status = mypy.wait(LIMIT)
    return int(status == 0), int(status != 0), 0


def main(names: List[str]) -> int:
    os.chdir(TOP)
    sys.path[0] = str(TOP)  # in the place of this folder, whose scripts are no modules
    mypy = None if names else begin_mypy()
    with concurrent.futures.ProcessPoolExecutor(PROCESSES) as pool:
        counts = list(pool.map(run_tests, names or modules()))
    if not names:
        counts.append(end_mypy(mypy))
    passed, failed, skipped = (sum(count) for count in zip(*counts))
    print(f"{passed} passed, {failed} failed" + (f", {skipped} skipped" if skipped else ""))
    return 1 if failed else 0


if __name__ == "__main__":
    sys.exit(main(sys.argv[1:]))
