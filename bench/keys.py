#!/usr/bin/env python3
"""Times the program on histories of registers with 1, 1,000 and 65,536 keys: `keys.py [EVENTS]`, 2^20 unless given.

Prints processor time, the least of three runs, and peak memory of a whole script. It prints the time from a line to its reply through two
pipes, for the last 2,000 events. It does so too for a rewind that removes the last event, and for a model set for one key.
"""
import argparse
import os
import pathlib
import subprocess
import sys
import threading
import time

sys.path.insert(0, str(pathlib.Path(__file__).resolve().parent))
from loads import whole, words
from program import PROGRAM
from workload import lines, positive_number

TIMED = 2_000


def reply(fd):
    text = b""
    while not text.endswith(b"\n"):
        text += os.read(fd, 4096)
    return text


def live(history):
    process = subprocess.Popen([str(PROGRAM), "script"], stdin=subprocess.PIPE, stdout=subprocess.PIPE, bufsize=0)
    first, last = history[:-TIMED], history[-TIMED:]

    def feed():
        with os.fdopen(os.dup(process.stdin.fileno()), "wb") as pipe:
            pipe.writelines(first)

    thread = threading.Thread(target=feed)
    thread.start()
    left = len(first)
    while left:
        left -= os.read(process.stdout.fileno(), 1 << 16).count(b"\n")
    thread.join()

    def timed(line):
        begin = time.perf_counter()
        process.stdin.write(line)
        reply(process.stdout.fileno())
        return time.perf_counter() - begin

    times = sorted(timed(line) for line in last)
    others = [timed(b"[:rewind %d]\n" % (len(history) - 1)), timed(b"[:model 7 :cas-register]\n")]
    process.stdin.close()
    process.wait()
    return times[len(times) // 2], times[len(times) * 99 // 100], others


def main():
    parser = argparse.ArgumentParser(description=__doc__, formatter_class=argparse.RawDescriptionHelpFormatter)
    parser.add_argument("events", nargs="?", type=positive_number, default=1 << 20)
    events = parser.parse_args().events
    print("| Keys | Events | `script` | Events a second | Peak memory | A reply, median | 99th of 100 | A rewind of the last event | A model set |")
    print("|---|---|---|---|---|---|---|---|---|")
    texts = {keys: pathlib.Path(f"/tmp/jepmon-bench-keys-{keys}.edn") for keys in (1, 1_000, 65_536)}
    measured = {}
    # All of these before any lines are held in memory here: the peak of a program is never below that of the process that started it.
    for keys, text in texts.items():
        with text.open("w") as out:
            out.writelines(line + "\n" for line in lines(events, 2, 1, "register", keys))
        measured[keys] = min(whole(words("script", "register", 2, 4096), text) for _ in range(3))
    for keys, text in texts.items():
        seconds, peak, _ = measured[keys]
        median, high, (rewind, model) = live(text.read_bytes().splitlines(True))
        text.unlink()
        print(f"| {keys:,} | {events:,} | {seconds:.2f} s | {round(events / max(seconds, 0.001), -3):,.0f} | {peak:.0f} MiB | {median * 1e6:.0f} us "
              f"| {high * 1e6:.0f} us | {rewind * 1e3:.2f} ms | {model * 1e3:.2f} ms |", flush=True)


if __name__ == "__main__":
    main()
