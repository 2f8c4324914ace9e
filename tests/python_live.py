#!/usr/bin/env python3
"""Live tests of the package's Monitor on the built program: stores in this process, some with a fault, used by several threads.
No server is needed. Ends with 'N passed, M failed'. With words, it runs the tests of these names alone. With --long, it runs those
of live_many.py, unless other names follow: each load lasts a minute, and each wrong answer is planted ten times (some 25 minutes).
"""
import faulthandler
import os
import signal
import sys
from typing import Callable

IS_LONG = "--long" in sys.argv
if IS_LONG:
    os.environ["JEPMON_LONG"] = "1"  # for live_many.py, which reads it as it is imported

import live_examples
import live_long
import live_many
import live_objects
import live_outcomes
import live_program
from case_loop import Case, run_cases

LIMIT = 7200 if IS_LONG else 1200  # seconds for all of them, on a machine that does much else
TESTS = [*live_objects.TESTS, *live_outcomes.TESTS, *live_program.TESTS, *live_long.TESTS, *live_many.TESTS,
         *live_examples.TESTS]


def case(test: Callable[[], None]) -> Case:
    return test.__name__, lambda: test() or []  # type: ignore[func-returns-value]


if __name__ == "__main__":
    signal.signal(signal.SIGINT, signal.default_int_handler)  # it may be ignored here, as for a job in the background, and so in children
    faulthandler.dump_traceback_later(LIMIT, exit=True)
    names = [word for word in sys.argv[1:] if word != "--long"]
    sys.exit(run_cases("python", list(map(case, TESTS)), names or [test.__name__ for test in live_many.TESTS] if IS_LONG else names))
