#!/usr/bin/env python3
"""Measures the libraries of clients/: `clients.py [NAME..]`, all of them if none is named: program, go, java, rust, c, erlang, python.

Threads write and read registers of their own, each write and its read on the next of 64 keys, against no store at all. The table has
thousands of events a second (two events are an operation) with 1, 5 and 50 threads, without waiting and with waiting: the median of the rounds.
`program` is `jepmon script` alone, which gets the same lines from a file. The rounds of the libraries take turns.

With --first it counts the lines of the first test in the README of each library. With --probe N it prints how many of N runs find the race
of a cas that takes some hundred nanoseconds, with each way to record (clients/go/probe_test.go).
"""
import argparse
import os
import pathlib
import re
import statistics
import subprocess
import sys
import tempfile
import time
from typing import Callable, Dict, List, Tuple

TOP = pathlib.Path(__file__).resolve().parent.parent
CLIENTS = TOP / "clients"
THREADS = (1, 5, 50)
FIRST = {"go": "go", "java": "java", "rust": "rust", "clojure": "clojure", "erlang": "erlang", "c": "c"}
ENVIRONMENT = dict(os.environ, JEPMON=os.environ.get("JEPMON", str(TOP / "dist" / "jepmon")), JEPMON_JUDGE="no", GOFLAGS="-mod=mod", GOPROXY="off")
Rate = Callable[[bool, int, int], float]  # whether events wait, threads, operations: events a second


def run(words: List[str], folder: pathlib.Path, **more: str) -> str:
    ran = subprocess.run(words, cwd=folder, env={**ENVIRONMENT, **more}, stdin=subprocess.DEVNULL, stdout=subprocess.PIPE, stderr=subprocess.STDOUT,
                         universal_newlines=True)
    if ran.returncode != 0:
        sys.exit(f"clients.py: {' '.join(words)} has ended with {ran.returncode}: {ran.stdout[-2000:]}")
    return ran.stdout


def found(pattern: str, text: str) -> float:
    match = re.search(pattern, text)
    if match is None:
        sys.exit(f"clients.py: there is no rate in {text!r}")
    return float(match.group(1))


# --- Each library: made ready once, and then a rate ---


def program(room: pathlib.Path) -> Rate:
    def rate(wait: bool, threads: int, operations: int) -> float:
        lines = []
        for key in range(64 * threads):
            lines += [f"{{:type :{kind} :process 0 :f :write :value [{key} -1]}}\n" for kind in ("invoke", "ok")]
        for i in range(operations // threads):
            for kind in ("invoke", "ok"):
                for thread in range(threads):
                    key, answer = thread * 64 + i // 2 % 64, i if i % 2 == 0 else i - 1
                    part = answer if i % 2 == 0 or kind == "ok" else "nil"
                    lines.append(f"{{:type :{kind} :process {thread} :f :{'read' if i % 2 else 'write'} :value [{key} {part}]}}\n")
        (room / "lines.edn").write_text("".join(lines))
        words = [ENVIRONMENT["JEPMON"], "script", "--strict", "--concurrency", "64", "--model", "wide-register"]
        begun = time.monotonic()
        with open(room / "lines.edn", "rb") as given:
            ran = subprocess.run(words, stdin=given, stdout=subprocess.DEVNULL)
        assert ran.returncode == 0
        return len(lines) / (time.monotonic() - begun)

    return rate


def go(room: pathlib.Path) -> Rate:
    run(["go", "test", "-vet=off", "-c", "-o", str(room / "go-bench"), "."], CLIENTS / "go")

    def rate(wait: bool, threads: int, operations: int) -> float:
        which = f"Operation/wait={str(wait).lower()}/goroutines={threads}$"
        words = [str(room / "go-bench"), "-test.run", "^$", "-test.bench", which, "-test.benchtime", f"{operations}x"]
        return found(r"([\d.e+]+) events/s", run(words, CLIENTS / "go"))

    return rate


def java(room: pathlib.Path) -> Rate:
    run([str(CLIENTS / "java" / "build"), str(room)], CLIENTS / "java")
    run(["javac", "-cp", str(room / "jepmon.jar"), "-d", str(room), "test/jepmon/Bench.java"], CLIENTS / "java")

    def rate(wait: bool, threads: int, operations: int) -> float:
        words = ["java", "-cp", f"{room / 'jepmon.jar'}:{room}", "jepmon.Bench", str(wait).lower(), str(threads), str(operations)]
        return found(r"(\d+) events a second", run(words, room))

    return rate


def rust(room: pathlib.Path) -> Rate:
    target = str(room / "target")
    run(["cargo", "build", "--offline", "--release", "--example", "bench"], CLIENTS / "rust", CARGO_TARGET_DIR=target)

    def rate(wait: bool, threads: int, operations: int) -> float:
        words = [f"{target}/release/examples/bench", str(wait).lower(), str(threads), str(operations)]
        return found(r"(\d+) events a second", run(words, room))

    return rate


def c(room: pathlib.Path) -> Rate:
    run(["cc", "-O2", "-pthread", "-o", str(room / "c-bench"), "bench.c"], CLIENTS / "c")
    return lambda wait, threads, operations: found(r"(\d+) events a second", run([str(room / "c-bench"), str(int(wait)), str(threads), str(operations)], room))


def erlang(room: pathlib.Path) -> Rate:
    run(["erlc", "-o", str(room), "jepmon.erl", "jepmon_program.erl", "bench.erl"], CLIENTS / "erlang")

    def rate(wait: bool, threads: int, operations: int) -> float:
        call = f"bench:main([{str(wait).lower()}, {threads}, {operations}])."
        return found(r"(\d+) events a second", run(["erl", "-noshell", "-pa", str(room), "-eval", call], room))

    return rate


def python(room: pathlib.Path) -> Rate:
    sys.path.insert(0, str(TOP / "python"))
    os.environ["JEPMON"] = ENVIRONMENT["JEPMON"]
    from jepmon import Monitor  # type: ignore

    def rate(wait: bool, threads: int, operations: int) -> float:
        begun = time.monotonic()
        with Monitor(concurrency=64) as monitor:

            def client(number: int) -> None:
                for i in range(operations // threads):
                    key = number * 64 + i // 2 % 64
                    if i % 2 == 0:
                        with monitor.write(key, i):
                            pass
                    else:
                        with monitor.read(key) as operation:
                            operation.value = i - 1

            monitor.run(client, threads)
        return 2 * operations / (time.monotonic() - begun)

    return rate


LIBRARIES: Dict[str, Callable[[pathlib.Path], Rate]] = {"program": program, "go": go, "java": java, "rust": rust, "c": c, "erlang": erlang,
                                                       "python": python}
# Whether events wait: those of Python's Monitor always do, and a file never does.
WAYS: Dict[str, Tuple[bool, ...]] = {"program": (False,), "python": (True,)}


def rates(names: List[str], asked: argparse.Namespace) -> None:
    with tempfile.TemporaryDirectory() as folder:
        ready = {name: LIBRARIES[name](pathlib.Path(folder)) for name in names}
        seen: Dict[Tuple[str, bool, int], List[float]] = {}
        for _ in range(asked.rounds):
            for wait in (False, True):
                for threads in THREADS:
                    for name in names:
                        if wait in WAYS.get(name, (False, True)):
                            operations = asked.operations // 10 if wait else asked.operations
                            seen.setdefault((name, wait, threads), []).append(ready[name](wait, threads, operations))
    print("| | " + " | ".join(f"{threads}, {way}" for way in ("not waiting", "waiting") for threads in THREADS) + " |")
    print("|---|" + "---|" * 6)
    for name in names:
        cells = [seen.get((name, wait, threads)) for wait in (False, True) for threads in THREADS]
        print(f"| {name} | " + " | ".join(f"{statistics.median(cell) / 1000:,.0f}" if cell else "" for cell in cells) + " |", flush=True)


# --- First tests, and the probe ---


def first() -> None:
    """The lines of the first test of each README: of its program, and of the commands that run it."""
    print("| | Lines of the test | Lines of commands |\n|---|---|---|")
    for name, language in FIRST.items():
        text = (CLIENTS / name / "README.md").read_text()
        part = text[text.index("## A first test"):text.index("## What to know")]
        blocks = re.findall(r"^```(\w+)\n(.*?)^```$", part, re.M | re.S)
        tests = [block for kind, block in blocks if kind == language]
        commands = sum(block.count("\n") for kind, block in blocks if kind == "sh")
        print(f"| {name} | {max(block.count(chr(10)) for block in tests)} | {commands} |")


def probe(runs: int) -> None:
    said = run(["go", "test", "-count=1", "-vet=off", "-v", "-run", "TestProbe", "."], CLIENTS / "go", JEPMON_PROBE=str(runs))
    print("| | Runs that find it | Events until then | Seconds for all |\n|---|---|---|---|")
    for name, count, of, events, seconds in re.findall(r"probe ([a-z ]+): (\d+) of (\d+) runs, (\d+) events until then, ([\d.]+) seconds", said):
        print(f"| {name} | {count} of {of} | {int(events):,} | {float(seconds):.1f} |")


def main() -> None:
    parser = argparse.ArgumentParser(description=__doc__, formatter_class=argparse.RawDescriptionHelpFormatter)
    parser.add_argument("names", nargs="*", metavar="NAME", help="libraries to measure")
    parser.add_argument("--operations", type=int, default=200_000, metavar="N", help="operations of a round; a tenth of them with waiting")
    parser.add_argument("--rounds", type=int, default=3, metavar="N")
    parser.add_argument("--first", action="store_true", help="count the lines of first tests instead")
    parser.add_argument("--probe", type=int, metavar="N", help="look for the race in N runs instead")
    asked = parser.parse_args()
    wrong = sorted(set(asked.names) - set(LIBRARIES))
    if wrong:
        parser.error(f"there is no library {', '.join(wrong)}")
    if asked.first:
        first()
    elif asked.probe:
        probe(asked.probe)
    else:
        rates([name for name in LIBRARIES if not asked.names or name in asked.names], asked)


if __name__ == "__main__":
    main()
