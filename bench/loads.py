#!/usr/bin/env python3
"""Times the program on histories of one key with many operations open at once: `loads.py [RUNS] [--share PART]`, 3 runs unless
given. A share of 0.1 makes histories of a tenth of the events, to try the script.

Prints processor time of `script` and of `check`, the least of several runs, and the peak memory of `script`. Then the median and the
slowest of its replies through two pipes, and the median that the two pipes take by themselves, which is that of `cat`.
"""
import argparse
import os
import pathlib
import subprocess
import sys
import time

sys.path.insert(0, str(pathlib.Path(__file__).resolve().parent))
from program import PROGRAM
from workload import lines, part_of_one, positive_number

# Kind of load, kind of object, clients, budget, events.
LOADS = [
    ("register", "register", 2, 4096, 200_000),
    ("register", "register", 5, 4096, 100_000),
    ("register", "register", 6, 65536, 20_000),
    ("register", "register", 10, 4096, 20_000),
    ("register", "register", 10, 65536, 20_000),
    ("cas-register", "cas-register", 5, 4096, 100_000),
    ("mutex", "mutex", 20, 4096, 40_000),
    ("fifo-queue", "fifo-queue", 3, 4096, 100_000),
    ("fifo-queue", "fifo-queue", 5, 65536, 20_000),
    ("large-set", "set", 5, 4096, 10_500),
]


def words(command, model, clients, budget):
    return [str(PROGRAM), command, "--model", model, "--concurrency", str(clients), "--budget", str(budget)]


def whole(call, standard_input):
    """Processor seconds, peak memory in MiB and exit status of one run."""
    run = " ".join(f"'{word}'" for word in call)
    pid = os.posix_spawn("/bin/sh", ["sh", "-c", f"exec {run} < '{standard_input}' > /dev/null 2>&1"], os.environ)
    _, status, used = os.wait4(pid, 0)
    return used.ru_utime + used.ru_stime, used.ru_maxrss / 1024, os.waitstatus_to_exitcode(status)


def replies(lines, call):
    """The seconds from each line to its reply, the shortest first."""
    process = subprocess.Popen(call, stdin=subprocess.PIPE, stdout=subprocess.PIPE, bufsize=0)
    times = []
    for line in lines:
        begin = time.perf_counter()
        process.stdin.write(line)
        reply = b""
        while not reply.endswith(b"\n"):
            reply += os.read(process.stdout.fileno(), 4096)
        times.append(time.perf_counter() - begin)
    process.stdin.close()
    process.wait()
    return sorted(times)


def middle_and_last(text, call):
    """The median and the greatest time from a line of the file to its reply, in milliseconds."""
    times = replies(text.read_bytes().splitlines(True), call)
    return times[len(times) // 2] * 1e3, times[-1] * 1e3


def asked(text):
    """The words of a script that times the program: how often, and on how much of each history."""
    parser = argparse.ArgumentParser(description=text, formatter_class=argparse.RawDescriptionHelpFormatter)
    parser.add_argument("runs", nargs="?", type=positive_number, default=3)
    parser.add_argument("--share", metavar="PART", type=part_of_one, default=1.0)
    return parser.parse_args()


def part(events, share):
    return max(2, int(events * share))


def main():
    given = asked(__doc__)
    runs = given.runs
    print("| Kind, clients, budget | Events | Exit status | `script` | Events a second | Peak memory | `check` | A reply, median | `cat`, median | Slowest |")
    print("|---|---|---|---|---|---|---|---|---|---|")
    for load, model, clients, budget, most in LOADS:
        events = part(most, given.share)
        text = pathlib.Path(f"/tmp/jepmon-load-{load}-{clients}-{budget}.edn")
        text.write_text("".join(line + "\n" for line in lines(events, clients, 1, load)))
        script = words("script", model, clients, budget)
        seconds, peak, status = min(whole(script, text) for _ in range(runs))
        recorded, _, _ = min(whole([*words("check", model, clients, budget), str(text)], "/dev/null") for _ in range(runs))
        median, slowest = min((middle_and_last(text, script) for _ in range(runs)), key=lambda pair: pair[1])
        pipes = min(middle_and_last(text, ["cat"])[0] for _ in range(runs))
        print(f"| {load}, {clients}, {budget:,} | {events:,} | {status} | {seconds:.3f} s | {round(events / max(seconds, 0.001), -3):,.0f} | {peak:.0f} MiB "
              f"| {recorded:.3f} s | {median * 1e3:.1f} us | {pipes * 1e3:.1f} us | {slowest:.1f} ms |", flush=True)
        text.unlink()


if __name__ == "__main__":
    main()
