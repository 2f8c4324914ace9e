#!/usr/bin/env python3
"""Runs examples/from-jepsen on recorded histories, and the built program on its output. Ends with 'N passed, M failed'.

A case is a folder of tests/from-jepsen. It has input.edn, or input.py, which prints the input. It has args, one word a line. The output
must agree to the byte with stdout, stderr and status (0 if there is no such file). The file verdict has the last line of the program on
that output, judged as the output's own advice says. The script gives refused outputs to jepmon check too, which must refuse them. With
names as arguments, it runs these cases alone.
"""
import functools
import pathlib
import re
import subprocess
import sys
import tempfile
from typing import List

import forked
from case_loop import LIMIT, Case, differing, given, read, run_cases, words
from program import PROGRAM

TOP = pathlib.Path(__file__).resolve().parent.parent
CASES = TOP / "tests" / "from-jepsen"
FILTER = TOP / "examples" / "from-jepsen"
ADVICE = re.compile(rb"judge it by: jepmon check FILE (.*?)(?: \(or .*)?\n")
SCRIPT = re.compile(rb"judge it by jepmon script (.*?), these lines before it:\n")


def turned(case: pathlib.Path) -> "subprocess.CompletedProcess[bytes]":
    """Runs the filter where the history is called input.edn, so that what it says is the same everywhere."""
    with tempfile.TemporaryDirectory() as folder:
        (pathlib.Path(folder) / "input.edn").write_bytes(given(case / "input.edn"))
        return forked.ran([str(FILTER), "input.edn"] + words(case / "args"), folder=folder)


def judge(arguments: List[str], text: bytes) -> bytes:
    """The last line that the program prints."""
    ran = subprocess.run([str(PROGRAM)] + arguments, input=text, stdout=subprocess.PIPE, stderr=subprocess.PIPE, timeout=LIMIT)
    return (ran.stdout or ran.stderr).splitlines()[-1]


def verdict(ran: "subprocess.CompletedProcess[bytes]") -> bytes:
    """The verdict on an output, as its advice says; without advice it is judged by check."""
    several = SCRIPT.search(ran.stderr)
    if several:
        models = re.findall(rb"\[:model \d+ :[a-z-]+\]", ran.stderr[several.end():])
        return judge(["script"] + several.group(1).decode().split(), b"\n".join(models) + b"\n" + ran.stdout)
    advice = ADVICE.search(ran.stderr)
    return judge(["check", "/dev/stdin"] + (advice.group(1).decode().split() if advice else []), ran.stdout)


def run_case(case: pathlib.Path) -> List[str]:
    ran = turned(case)
    return (differing("standard output", ran.stdout, read(case / "stdout"))
            + differing("standard error", ran.stderr, read(case / "stderr"))
            + differing("status", b"%d" % ran.returncode, read(case / "status", b"0").strip())
            + differing("the verdict", verdict(ran), read(case / "verdict").strip()))


def run_example() -> List[str]:
    """The history of a black-box case is what comes of the example."""
    ran = subprocess.run([sys.executable, str(FILTER), str(TOP / "examples" / "jepsen-register.edn")], stdout=subprocess.PIPE,
                         stderr=subprocess.DEVNULL, timeout=LIMIT)
    return differing("standard output", ran.stdout, read(TOP / "tests" / "cases" / "example_from_jepsen" / "history.edn"))


def run_standard_input() -> List[str]:
    """A history comes by standard input as by a file."""
    case = CASES / "maps"
    ran = forked.ran([str(FILTER)], given(case / "input.edn"))
    return differing("standard output", ran.stdout, read(case / "stdout"))


def refused(arguments: List[str]) -> List[str]:
    """These words are refused: status 3, a reason, and an output that jepmon check refuses."""
    ran = forked.ran([str(FILTER)] + arguments)
    got = (ran.returncode, ran.stderr.startswith(b"from-jepsen: refused: "), verdict(ran))
    return [] if got == (3, True, b"refused 11 Unreadable 0") else [f"{arguments} ended with {got!r}: {ran.stderr!r}"]


def run_words() -> List[str]:
    """A file that can't be read, and faults of the command line."""
    example = str(TOP / "examples" / "jepsen-register.edn")
    return (refused(["/nowhere/history.edn"]) + refused([str(TOP)]) + refused([example, "--key", "x"]) + refused([])
            + refused([example, "--key", "65536"]) + refused([example, "--unknown"]) + refused([example, "another"]))


def run_closed_input() -> List[str]:
    """Where there is no standard input at all it is said, as that of a file that can't be read."""
    ran = subprocess.run(["sh", "-c", 'exec "$@" <&-', "sh", sys.executable, str(FILTER)], stdout=subprocess.PIPE,
                         stderr=subprocess.PIPE, timeout=LIMIT)
    want = b"from-jepsen: refused: it can't be read: standard input is closed: name a file, or give the history there\n"
    return differing("what came", (ran.returncode, ran.stderr, verdict(ran)), (3, want, b"refused 11 Unreadable 0"))


def run_full_device() -> List[str]:
    """An output that can't be written: status 3."""
    with open("/dev/full", "wb") as full:
        ran = subprocess.run([sys.executable, str(FILTER), str(TOP / "examples" / "jepsen-register.edn")], stdout=full,
                             stderr=subprocess.PIPE, timeout=LIMIT)
    return [] if ran.returncode != 0 and b"can't be written" in ran.stderr else [f"it ended with {ran!r}"]


def run_many_events() -> List[str]:
    """20,000 events take seconds, not minutes."""
    pair = "{{:index {0}, :time {0}, :type :{1}, :process 0, :f :write, :value [{2} {0}], :error [:etcd/timeout \"n1\" 1.5]}}\n"
    text = "".join(pair.format(i, kind, i % 50) for i in range(10_000) for kind in ("invoke", "ok"))
    ran = subprocess.run([sys.executable, str(FILTER)], input=text.encode(), stdout=subprocess.PIPE, stderr=subprocess.PIPE,
                         timeout=LIMIT)
    return differing("the verdict", verdict(ran), b"legal") + differing("lines", b"%d" % ran.stdout.count(b"\n"), b"20000")


def all_cases() -> List[Case]:
    """Each case by its name."""
    cases = [(case.name, functools.partial(run_case, case)) for case in sorted(CASES.iterdir()) if case.is_dir()]
    return cases + [("the_example", run_example), ("standard_input", run_standard_input), ("faults_of_words", run_words), ("closed_input", run_closed_input),
                    ("a_full_device", run_full_device), ("many_events", run_many_events)]


if __name__ == "__main__":
    sys.exit(run_cases("from-jepsen", all_cases(), sys.argv[1:]))
