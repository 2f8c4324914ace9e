#!/usr/bin/env python3
"""Times the program on histories of one key, with 2 and with 4 clients: `run.py [EVENTS] [--model NAME]`.

Without words a history is that of a register and has 10,000 events; `--model all` goes through the kinds. Prints lines a
second and peak memory of a whole script, and the time from a line to its reply through two pipes.
"""
import argparse
import os
import pathlib
import sys
import time

sys.path.insert(0, str(pathlib.Path(__file__).resolve().parent))
from loads import replies
from program import PROGRAM
from workload import MODELS, lines


def words(model, clients):
    return [str(PROGRAM), "script", "--model", model, "--concurrency", str(clients)]


def whole(text, model, clients):
    begin = time.monotonic()
    run = " ".join(f"'{word}'" for word in words(model, clients))
    pid = os.posix_spawn("/bin/sh", ["sh", "-c", f"exec {run} < '{text}' > /dev/null"], os.environ)
    _, status, used = os.wait4(pid, 0)
    return time.monotonic() - begin, used.ru_maxrss, os.waitstatus_to_exitcode(status)


def measure(events, model):
    for clients in (2, 4):
        text = pathlib.Path(f"/tmp/jepmon-bench-{model}-{clients}.edn")
        text.write_text("".join(line + "\n" for line in lines(events, clients, 1, model)))
        seconds, peak, status = whole(text, model, clients)
        times = replies(text.read_bytes().splitlines(True)[:1000], words(model, clients))
        median, high = times[len(times) // 2], times[len(times) * 99 // 100]
        print(f"{model}, {clients} clients, {events} events: {seconds:.2f} s, {events / seconds:,.0f} lines/s, peak {peak / 1024:.0f} MiB, "
              f"status {status}; a reply takes {median * 1e6:.0f} us (median), {high * 1e6:.0f} us (99th of 100)")
        text.unlink()


def main():
    parser = argparse.ArgumentParser(description="Times the built program on histories of one key.")
    parser.add_argument("events", nargs="?", type=int, default=10_000)
    parser.add_argument("--model", choices=[*MODELS, "all"], default="register")
    given = parser.parse_args()
    for model in MODELS if given.model == "all" else [given.model]:
        measure(given.events, model)


if __name__ == "__main__":
    main()
