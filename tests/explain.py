#!/usr/bin/env python3
"""Runs examples/explain on histories, with the built program. Ends with 'N passed, M failed'.

A case is a folder of tests/explain. It has history.edn, or history.py, which prints it; and args, the options of the check, one word a line.
Its stdout, stderr and status (0 where left out) must agree to the byte. stdout is the last line, and the whole output and the status
must be those of jepmon check itself. With words, it runs the cases of these names alone.
"""
import functools
import os
import pathlib
import shutil
import subprocess
import sys
import tempfile
from typing import Dict, List

import forked
import program as tested
from case_loop import LIMIT, Case, by_model, differing, given, read, run_cases, words

TOP = pathlib.Path(__file__).resolve().parent.parent
CASES = TOP / "tests" / "explain"
EXPLAIN = TOP / "examples" / "explain"
PROGRAM = str(tested.PROGRAM)


def explained(arguments: List[str], text: bytes = b"", program: str = PROGRAM) -> "subprocess.CompletedProcess[bytes]":
    environment: Dict[str, str] = dict(os.environ, JEPMON=program)
    return forked.ran([str(EXPLAIN)] + arguments, text, environment=environment)


def run_case(case: pathlib.Path) -> List[str]:
    text = given(case / "history.edn")
    ran = explained(["-"] + words(case / "args"), text)
    options = [word for word in words(case / "args") if word != "--by-ends"]
    plain = subprocess.run([PROGRAM, "check", "/dev/stdin"] + options, input=text, stdout=subprocess.PIPE,
                           stderr=subprocess.PIPE, timeout=LIMIT)
    return (differing("the last line of standard output", b"".join(ran.stdout.splitlines(True)[-1:]), read(case / "stdout"))
            + differing("standard error", ran.stderr, read(case / "stderr"))
            + differing("status", ran.returncode, int(read(case / "status", b"0")))
            + differing("what jepmon check says", (by_model(ran.stdout), ran.returncode), (plain.stdout, plain.returncode)))


def run_file() -> List[str]:
    """A history comes by a file as by standard input."""
    case = CASES / "stale_read"
    ran = explained([str(case / "history.edn")] + words(case / "args"))
    return differing("standard error", ran.stderr, read(case / "stderr")) + differing("status", ran.returncode, 1)


def run_missing_file() -> List[str]:
    ran = explained(["/nowhere/history.edn"])
    want = (b"refused 20 ReadFailed\n", b"explain: /nowhere/history.edn: No such file or directory\n", 3)
    return differing("what came", (ran.stdout, ran.stderr, ran.returncode), want)


def run_closed_input() -> List[str]:
    ran = subprocess.run(["sh", "-c", 'exec "$@" <&-', "sh", sys.executable, str(EXPLAIN), "-"], stdout=subprocess.PIPE,
                         stderr=subprocess.PIPE, timeout=LIMIT)
    want = (b"", b"explain: standard input is closed: name a file, or give the history there\n", 3)
    return differing("what came", (ran.stdout, ran.stderr, ran.returncode), want)


def run_faults_of_words() -> List[str]:
    """jepmon check's message about an option comes through, with its status."""
    ran = explained(["-", "--concurrency", "65"])
    other = explained(["-", "--seed", "1"])
    want = b"refused 10 BadConcurrency\nexplain: 64 is the limit; examples/from-jepsen numbers the processes again, so that 64 "
    return (differing("what came", (ran.stdout, ran.stderr[:len(want)], ran.returncode), (b"", want, 3))
            + differing("what came of a word of no option", (other.stdout, other.returncode), (b"", 3)))


def run_no_verdict() -> List[str]:
    """Anything but a verdict of jepmon ends with 3, and says why."""
    case = CASES / "stale_read" / "history.edn"
    faults = []
    for program, why in (("/nowhere/jepmon", b"explain: /nowhere/jepmon can't be run: No such file or directory"),
                         (str(TOP), b"can't be run: Permission denied"),
                         ("/bin/true", b"explain: /bin/true gave no verdict: it printed nothing, and its status was 0; is it"),
                         ("/bin/false", b"gave no verdict: it printed nothing, and its status was 1"),
                         ("/bin/echo", b"gave no verdict: its last line was 'check /dev/stdin --model register', and its status was 0")):
        ran = explained([str(case)], program=program)
        faults += differing(f"the status with {program}", (ran.returncode, ran.stdout, why in ran.stderr), (3, b"", True))
    return faults


def run_no_program() -> List[str]:
    """Where no program is built, named or on the PATH."""
    with tempfile.TemporaryDirectory() as folder:
        alone = pathlib.Path(folder, "examples", "explain")
        alone.parent.mkdir()
        shutil.copy(str(EXPLAIN), str(alone))
        shutil.copytree(str(TOP / "python"), str(pathlib.Path(folder, "python")), ignore=shutil.ignore_patterns("__pycache__"))
        environment = {name: value for name, value in os.environ.items() if name != "JEPMON"}
        ran = subprocess.run([sys.executable, str(alone), str(CASES / "stale_read" / "history.edn")], stdout=subprocess.PIPE,
                             stderr=subprocess.PIPE, timeout=LIMIT, env=dict(environment, PATH=folder))
    want = b"explain: there is no jepmon: `./jepmon install DIR`, put DIR on the PATH, or set JEPMON\n"
    return differing("what came", (ran.stdout, ran.stderr, ran.returncode), (b"", want, 3))


def run_full_device() -> List[str]:
    """A verdict that can't be written is none."""
    with open("/dev/full", "wb") as full:
        ran = subprocess.run([sys.executable, str(EXPLAIN), str(CASES / "stale_read" / "history.edn")], stdout=full,
                             stderr=subprocess.PIPE, timeout=LIMIT, env=dict(os.environ, JEPMON=PROGRAM))
    return differing("what came", (ran.returncode, ran.stderr.splitlines()[:1]),
                     (3, [b"explain: the output can't be written: No space left on device"]))


def all_cases() -> List[Case]:
    """Each case by its name."""
    cases = [(case.name, functools.partial(run_case, case)) for case in sorted(CASES.iterdir()) if case.is_dir()]
    return cases + [("a_file", run_file), ("a_missing_file", run_missing_file), ("closed_input", run_closed_input),
                    ("faults_of_words", run_faults_of_words), ("no_verdict", run_no_verdict), ("no_program", run_no_program),
                    ("a_full_device", run_full_device)]


if __name__ == "__main__":
    sys.exit(run_cases("explain", all_cases(), sys.argv[1:]))
