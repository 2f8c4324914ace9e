#!/usr/bin/env python3
"""Times the program where reads are lost and where operations have several outcomes: `outcomes.py [RUNS] [--share PART]`, as loads.py.

Histories of one key: a register of five clients of which one in twenty reads is never answered, and unordered queues of five clients and
twenty values. Prints processor time of `script`, the least of several runs, its peak memory, and the most ends that an ok meets: the least
budget with which no ok is over it. Then come queues that get different values, one after the other, before one dequeue, which may find each
of them. The dequeue's ok is over the budget, or there is no memory for its outcomes within 4 GiB.
"""
import pathlib
import resource
import sys

sys.path.insert(0, str(pathlib.Path(__file__).resolve().parent))
from loads import asked, part, whole, words
from workload import lines

MOST_ENDS = 65_536
STATUSES = {0: "legal", 1: "illegal", 2: "unknown", 3: "refused"}

# Kind of load, kind of object, budget, events, part of the reads that is lost.
LOADS = [
    ("register", "register", 4096, 100_000, 0.0),
    ("register", "register", 4096, 100_000, 0.05),
    ("unordered-queue", "unordered-queue", 4096, 100_000, 0.0),
    ("long-unordered-queue", "unordered-queue", 4096, 20_000, 0.0),
    ("long-unordered-queue", "unordered-queue", 65536, 20_000, 0.0),
]

# How many different values are put in, and the budget.
DIFFERENT = [(1_000, 4096), (4_000, 4096), (4_097, 4096), (20_000, 4096), (20_000, 65536)]


def most_ends(text, model):
    """The least budget with which the history is legal, or None where there is none."""
    def is_legal(budget):
        return whole(words("script", model, 5, budget), text)[2] == 0

    if not is_legal(MOST_ENDS):
        return None
    low, high = 0, MOST_ENDS
    while high - low > 1:
        middle = (low + high) // 2
        low, high = (low, middle) if is_legal(middle) else (middle, high)
    return high


def measured(text, model, clients, budget, runs):
    """Processor seconds, peak memory and what the last verdict was."""
    seconds, peak, status = min(whole(words("script", model, clients, budget), text) for _ in range(runs))
    return seconds, peak, STATUSES.get(status, f"status {status}")


def row(name, budget, events, figures, ends=""):
    seconds, peak, verdict = figures
    print(f"| {name} | {budget:,} | {events:,} | {verdict} | {seconds:.3f} s | {peak:,.0f} MiB | {ends} |", flush=True)


def of_clients(runs, share):
    for load, model, budget, most, lost in LOADS:
        events = part(most, share)
        text = pathlib.Path(f"/tmp/jepmon-outcomes-{load}-{budget}-{lost}.edn")
        text.write_text("".join(line + "\n" for line in lines(events, 5, 1, load, lost=lost)))
        ends = most_ends(text, model)
        row(f"{load}, {lost:.0%} of the reads lost" if lost else load, budget, events, measured(text, model, 5, budget, runs),
            f"{ends:,}" if ends else f"over {MOST_ENDS:,}")
        text.unlink()


def of_different_values(runs, share):
    resource.setrlimit(resource.RLIMIT_AS, (4 << 30, 4 << 30))
    for most, budget in DIFFERENT:
        values = part(most, share)
        text = pathlib.Path(f"/tmp/jepmon-different-{values}-{budget}.edn")
        with text.open("w") as out:
            for value in range(values):
                out.write(f"{{:type :invoke, :process 0, :f :enqueue, :value [7 {value}]}}\n")
                out.write(f"{{:type :ok, :process 0, :f :enqueue, :value [7 {value}]}}\n")
            out.write("{:type :invoke, :process 0, :f :dequeue, :value [7 nil]}\n")
            out.write(f"{{:type :ok, :process 0, :f :dequeue, :value [7 {values // 2}]}}\n")
        row(f"{values:,} different values, one dequeue", budget, 2 * values + 2, measured(text, "unordered-queue", 1, budget, runs))
        text.unlink()


def main():
    given = asked(__doc__)
    print("| Load | Budget | Events | Ends with | `script` | Peak memory | Most ends |")
    print("|---|---|---|---|---|---|---|")
    of_clients(given.runs, given.share)
    of_different_values(given.runs, given.share)


if __name__ == "__main__":
    main()
