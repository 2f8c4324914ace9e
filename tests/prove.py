#!/usr/bin/env python3
"""Runs `rt ci` as the gate does, and passes its output on. Then it says how much was proved again, where the processor time went, and how
much memory the checks took.

It reads the time and the memory of the checks that `rt ci` starts once a second from /proc: those of proofs, and those of tests. The time
of shorter processes counts as other. The last line is that of `rt ci`.
"""
import collections
import os
import pathlib
import re
import resource
import subprocess
import sys
import threading
import time

TICKS = os.sysconf("SC_CLK_TCK")
MOST_OF_A_CHECK = 3_300_000_000  # bytes: the most that a check of a crate has taken (bench/results/runs.md)
PLANNED = 6_000_000_000  # bytes, at most, that `rt ci` plans for a check; it leaves a part of the free memory
UNPLANNED = 0.15
KINDS = ("proofs", "tests")
COUNTS = re.compile(rb"\d+ passed, \d+ failed")
SHARE = re.compile(r"^rt: ok.*?(\d+) of the (\d+) proofs")
PEAK = re.compile(r"VmHWM:\s+(\d+) kB")


def processes():
    """Each process that can be read: its number, its parent, when it began, and its ticks so far."""
    for entry in os.listdir("/proc"):
        if entry.isdigit():
            try:
                after = pathlib.Path("/proc", entry, "stat").read_text().rpartition(")")[2].split()
            except OSError:
                continue
            yield int(entry), int(after[1]), int(after[19]), int(after[11]) + int(after[12])


def descendants(root):
    """The ticks of each process that the root has started, or one that it started, by its number and when it began."""
    seen = {number: rest for number, *rest in processes()}
    found, before = {root}, 0
    while len(found) > before:
        before = len(found)
        found |= {number for number, (parent, _, _) in seen.items() if parent in found}
    return {(number, seen[number][1]): seen[number][2] for number in found & seen.keys()}


def kind_of(number):
    """The purpose of a check, and its crate; None for anything else."""
    try:
        words = pathlib.Path("/proc", str(number), "cmdline").read_bytes().decode(errors="replace").split("\0")
    except OSError:
        return None
    if "--crate-name" not in words:
        return None
    return words[words.index("--crate-name") + 1], "tests" if "--test" in words else "proofs"


def peak_of(number):
    """The most memory that a process has had at once so far, in bytes; 0 if it has ended."""
    try:
        found = PEAK.search(pathlib.Path("/proc", str(number), "status").read_text())
    except OSError:
        return 0
    return 1024 * int(found[1]) if found else 0


class Times:
    """The processor seconds and the memory of the checks that a process starts, by crate and kind, while it runs."""

    def __init__(self, root):
        self.root, self.kinds, self.ticks, self.peaks = root, {}, {}, collections.Counter()
        self.ended = threading.Event()
        self.watcher = threading.Thread(target=self.watch, daemon=True)
        self.watcher.start()

    def watch(self):
        while not self.ended.wait(1.0):
            for process, ticks in descendants(self.root).items():
                self.kinds[process] = kind = self.kinds.get(process) or kind_of(process[0])
                self.ticks[process] = ticks
                if kind:
                    self.peaks[kind] = max(self.peaks[kind], peak_of(process[0]))

    def end(self):
        """Minutes by crate and kind, once nothing runs any more."""
        self.ended.set()
        self.watcher.join()
        minutes = collections.Counter()
        for process, kind in self.kinds.items():
            if kind:
                minutes[kind] += self.ticks[process] / TICKS / 60
        return minutes


def table(minutes, peaks, whole):
    """The lines of a table: a crate each, with the minutes and the memory of its checks, and the sums."""
    yield f"{'':<20}" + "".join(f"{kind + ', min':>14}{'GB':>6}" for kind in KINDS)
    for crate in dict.fromkeys(crate for crate, _ in minutes):
        yield f"{crate:<20}" + "".join(f"{minutes[crate, kind]:14.1f}{peaks[crate, kind] / 1e9:6.1f}" for kind in KINDS)
    sums = [sum(of for (_, each), of in minutes.items() if each == kind) for kind in KINDS]
    most = [max((of for (_, each), of in peaks.items() if each == kind), default=0) for kind in KINDS]
    yield f"{'together, most':<20}" + "".join(f"{of:14.1f}{peak / 1e9:6.1f}" for of, peak in zip(sums, most))
    yield f"processor minutes of `rt ci`: {sum(sums):.1f} of checks, and {max(0, whole - sum(sums)):.1f} other"


def share(line):
    """How much was done in this run and how much is kept from earlier ones, by the line of `rt ci`."""
    if "every proof and must-fail edit was done" in line:
        return "every proof was done in this run"
    of = SHARE.match(line)
    return f"{of[2]} proofs: {of[1]} done in this run, {int(of[2]) - int(of[1])} kept" if of else None


def settings():
    """How `rt ci` shares the processors. Left to itself it gives a check several processors if no other check is ready, but it plans with
    twice the memory that a check takes. If that plan leaves one of two processors idle, an option limits how many checks run at once."""
    with open("/proc/meminfo", encoding="ascii") as meminfo:
        free = int(re.search(r"MemAvailable:\s+(\d+)", meminfo.read())[1]) * 1024
    processors = len(os.sched_getaffinity(0))
    if (1 - UNPLANNED) * free >= min(processors, 2) * PLANNED:
        return {}
    return {"RT_JOBS": str(max(1, min(processors, free // MOST_OF_A_CHECK)))}


def main(words):
    begin = time.monotonic()
    ran = subprocess.Popen(["rt", "ci", *words], stdout=subprocess.PIPE, stderr=subprocess.STDOUT, env=settings() | os.environ)
    times, told, counts = Times(ran.pid), None, b""
    for line in ran.stdout:
        told = share(line.decode(errors="replace")) or told
        if COUNTS.match(line):
            counts = line
        else:
            sys.stdout.buffer.write(line)
            sys.stdout.flush()
    status = ran.wait()
    minutes, used = times.end(), resource.getrusage(resource.RUSAGE_CHILDREN)
    for line in table(minutes, times.peaks, (used.ru_utime + used.ru_stime) / 60):
        print(line)
    print(f"rt ci took {time.monotonic() - begin:.0f} seconds" + (f"; {told}" if told else ""), flush=True)
    sys.stdout.buffer.write(counts or b"0 passed, 1 failed\n")
    sys.stdout.flush()
    return status


if __name__ == "__main__":
    sys.exit(main(sys.argv[1:]))
