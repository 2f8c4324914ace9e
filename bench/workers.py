#!/usr/bin/env python3
"""Times what workers do: `workers.py [RUNS [ROUNDS [EVENTS]]]`, 5 runs of 2,000 rounds and 2^20 events unless given.

By the program `bench`, the time of a load of a history of ten keys, on each of which six clients write at once, by 1, 2 and 4 workers. By
the program `jepmon`, the time, the processor time and the peak memory of a `check --workers N` of recorded files. The files are ten keys
with six clients each, whose ends are many, with a quarter of the events; and 1,000 keys and 65,536 keys with two clients in all, which take
mostly reading. The last is the reading alone, which is a check behind a first element that is not an event. The least of all runs, and how
many times as fast as by one worker. The output has to be the same by any number of workers, also of 400,000 events over 2,000 keys, which
are not timed.
"""
import os
import pathlib
import subprocess
import sys
import time

sys.path.insert(0, str(pathlib.Path(__file__).resolve().parent))
from workload import lines

CRATES = pathlib.Path(__file__).resolve().parent.parent / "crates"
BENCH = CRATES / "bench" / "out" / "bench"
JEPMON = CRATES / "jepmon" / "out" / "jepmon"
WORKERS = (1, 2, 4)
TEXT = pathlib.Path("/tmp/jepmon-bench-workers.edn")


def loads(rounds):
    """Seconds of a load, by the number of workers."""
    text = subprocess.run([str(BENCH), "workers", str(rounds)], capture_output=True, text=True, check=True).stdout
    return {int(line.split()[0]): int(line.split()[2]) / 1e6 for line in text.splitlines()}


def crowded(events, keys, clients):
    """A legal history in which the threads go by keys: the clients of each key write and read at once."""
    per_key = [lines(events // keys, clients, seed, "register") for seed in range(keys)]
    for at, line in enumerate(line for row in zip(*per_key) for line in row):
        key = at % keys
        yield with_key(line, key, clients)


def with_key(line, key, clients):
    """The line, of another key and of that key's own threads."""
    head, rest = line.split(":process ", 1)
    process, rest = rest.split(",", 1)
    before, value = rest.split("[", 1)
    _, part = value.split(" ", 1)
    return f"{head}:process {int(process) + key * clients},{before}[{key} {part}"


def checked(text, concurrency, budget, workers):
    """Seconds, processor seconds, peak memory in MiB, exit status and output of a check."""
    words = [str(JEPMON), "check", str(text), "--concurrency", str(concurrency), "--budget", str(budget), "--workers", str(workers)]
    said = TEXT.with_suffix(".out")
    begin = time.perf_counter()
    pid = os.posix_spawn(words[0], words, os.environ,
                         file_actions=[(os.POSIX_SPAWN_OPEN, 1, str(said), os.O_WRONLY | os.O_CREAT | os.O_TRUNC, 0o644)])
    _, status, used = os.wait4(pid, 0)
    spent = time.perf_counter() - begin
    return spent, used.ru_utime + used.ru_stime, used.ru_maxrss / 1024, os.waitstatus_to_exitcode(status), said.read_bytes()


def write(history):
    TEXT.write_text("".join(line + "\n" for line in history))


def each_by(workers, runs, concurrency, budget, status):
    """The runs of a check of the file, by the number of workers. They print the same."""
    goes = {w: [checked(TEXT, concurrency, budget, w) for _ in range(runs)] for w in workers}
    assert {go[3] for every in goes.values() for go in every} == {status}, "another status"
    assert len({go[4] for every in goes.values() for go in every}) == 1, "other workers print something else"
    return goes


def row(name, seconds, goes=None):
    for workers in seconds:
        spent, memory = "", ""
        if goes:
            spent = f"{min(go[1] for go in goes[workers]):.2f} s"
            memory = f"{max(go[2] for go in goes[workers]):.0f} MiB"
        print(f"| {name} | {workers} | {seconds[workers]:.2f} s | {seconds[1] / seconds[workers]:.1f} | {spent} | {memory} |", flush=True)


def row_of(name, goes):
    row(name, {w: min(go[0] for go in goes[w]) for w in goes}, goes)


def main():
    runs = int(sys.argv[1]) if len(sys.argv) > 1 else 5
    rounds = int(sys.argv[2]) if len(sys.argv) > 2 else 2000
    events = int(sys.argv[3]) if len(sys.argv) > 3 else 1 << 20
    print("| What | Workers | Time | Times as fast | Processor time | Peak memory |")
    print("|---|---|---|---|---|---|")
    every = [loads(rounds) for _ in range(runs)]
    row(f"load, 10 keys of 6 clients, {rounds * 120:,} events", {w: min(one[w] for one in every) for w in WORKERS})
    few = events // 40 * 10
    files = [
        (f"10 keys of 6 clients, {few:,} events", crowded(few, 10, 6), 60, 65_536),
        (f"1,000 keys, 2 clients, {events:,} events", lines(events, 2, 1, "register", 1_000), 2, 4_096),
        (f"65,536 keys, 2 clients, {events:,} events", lines(events, 2, 1, "register", 65_536), 2, 4_096),
    ]
    for name, history, concurrency, budget in files:
        write(history)
        row_of(f"check, {name}", each_by(WORKERS, runs, concurrency, budget, 0))
        write(["nil", *TEXT.read_text().splitlines()])
        row_of("the same, read alone", each_by((1,), runs, concurrency, budget, 3))
    write(lines(400_000, 2, 1, "register", 2_000))
    each_by((1, 2, 4, 64), 1, 2, 4_096, 0)
    TEXT.unlink()
    TEXT.with_suffix(".out").unlink()


if __name__ == "__main__":
    main()
