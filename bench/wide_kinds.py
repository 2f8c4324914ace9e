#!/usr/bin/env python3
"""Measures the wide kinds beside the plain ones, on keys that many clients share: `wide_kinds.py [--seeds N] [--ops N] [--seconds N]
[--kind NAME] [--clients N,..]`; JEPMON names the program.

A load is one key of a correct object, whose clients never rest. At each step one client, drawn at random, invokes an operation, or its
operation takes place, or it returns or times out. All values differ. Of a queue a read is a dequeue; one that finds nothing fails, as a cas
does whose first value is not the state. A row has a load, and for each of both kinds the number of seeds that
`jepmon check` decides at the budgets 4,096 and 65,536. If it decides all at 65,536, the row also has the least power of two that decides
all of them. The last cell has the microseconds of the processor for an event. A key that takes more seconds of the processor than the limit
is late.
"""
import argparse
import pathlib
import random
import resource
import subprocess
import sys
from typing import Iterator, List, NamedTuple

sys.path.insert(0, str(pathlib.Path(__file__).resolve().parent.parent / "python"))

from jepmon.program import find_program  # noqa: E402

GREATEST = 16  # the power of two that is the greatest budget
UPDATES = {"register": "write", "cas-register": "write", "fifo-queue": "enqueue", "set": "add", "unordered-queue": "enqueue"}
QUEUES = ("fifo-queue", "unordered-queue")
CLIENTS = (5, 8, 12, 16, 20)
READS = (0.3, 0.5, 0.9)
TIMEOUTS = (0.0, 0.01, 0.05)


class Load(NamedTuple):
    kind: str
    clients: int
    reads: float
    timeouts: float


class Client:
    """A client and its open operation."""

    def __init__(self, process: int) -> None:
        self.process = process
        self.name, self.part, self.answer = "", "nil", ""
        self.is_open = self.took_place = self.fails = False


class Result(NamedTuple):
    is_decided: bool
    is_late: bool
    seconds: float  # of the processor


def ask(load: Load, client: Client, draw: random.Random, value: int, state: List[int]) -> None:
    """The client invokes an operation. A cas is half of the updates of a cas-register, and its first value is the state, three times of four."""
    client.is_open, client.took_place, client.fails = True, False, False
    if draw.random() < load.reads:
        client.name, client.part = "dequeue" if load.kind in QUEUES else "read", "nil"
    elif load.kind == "cas-register" and draw.random() < 0.5:
        first = state[-1] if state and draw.random() < 0.75 else value - 1
        client.name, client.part = "cas", f"[{first} {value}]"
    else:
        client.name, client.part = UPDATES[load.kind], str(value)


def take_place(load: Load, client: Client, draw: random.Random, state: List[int]) -> None:
    """The client's operation takes place, and finds its answer. The state of a register is its last value."""
    client.took_place, client.answer = True, client.part
    if client.name == "read":
        client.answer = "#{" + " ".join(map(str, state)) + "}" if load.kind == "set" else str(state[-1]) if state else "nil"
    elif client.name == "dequeue":
        client.fails = not state
        client.answer = str(state.pop(draw.randrange(len(state)) if load.kind == "unordered-queue" else 0)) if state else "nil"
    elif client.name == "cas":
        first, second = map(int, client.part[1:-1].split())
        client.fails = not state or state[-1] != first
        state += [] if client.fails else [second]
    else:
        state.append(int(client.part))


def events_of(load: Load, operations: int, seed: int) -> Iterator[str]:
    """The events of a load, a line each."""
    draw = random.Random(f"{load} {seed}")
    clients = [Client(process) for process in range(load.clients)]
    state: List[int] = []
    invoked = 0
    while invoked < operations or any(client.is_open for client in clients):
        client = clients[draw.randrange(load.clients)]
        if not client.is_open:
            if invoked < operations:
                invoked += 1
                ask(load, client, draw, invoked, state)
                yield told(client, "invoke", client.part)
        elif not client.took_place:
            take_place(load, client, draw, state)
        elif draw.random() < load.timeouts:
            yield told(client, "info", client.part)
            client.process, client.is_open = client.process + load.clients, False
        else:
            yield told(client, "fail", client.part) if client.fails else told(client, "ok", client.answer)
            client.is_open = False


def told(client: Client, kind: str, part: str) -> str:
    return f"{{:type :{kind}, :process {client.process}, :f :{client.name}, :value [7 {part}]}}\n"


def processor_seconds() -> float:
    """The time of all programs that have ended."""
    used = resource.getrusage(resource.RUSAGE_CHILDREN)
    return used.ru_utime + used.ru_stime


def checked(text: str, load: Load, model: str, budget: int, limit: int) -> Result:
    words = [find_program(), "check", "--concurrency", str(load.clients), "--model", model, "--budget", str(budget), "-"]
    began = processor_seconds()
    ran = subprocess.run(words, input=text.encode(), stdout=subprocess.PIPE, stderr=subprocess.DEVNULL,
                         preexec_fn=lambda: resource.setrlimit(resource.RLIMIT_CPU, (limit, limit + 1)))
    is_late = ran.returncode < 0
    if ran.returncode not in (0, 2) and not is_late:
        raise SystemExit(f"{' '.join(words)}: status {ran.returncode}, of a correct load: {ran.stdout.decode()}")
    return Result(ran.returncode == 0, is_late, processor_seconds() - began)


def least_budget(text: str, load: Load, model: str, limit: int) -> int:
    """The least power of two that decides the key, between the limits of a budget; it is known that the greatest one does."""
    low, high = 0, GREATEST
    while low < high:
        middle = (low + high) // 2
        low, high = (low, middle) if checked(text, load, model, 1 << middle, limit).is_decided else (middle + 1, high)
    return 1 << high


def row_of(load: Load, texts: List[str], limit: int) -> List[str]:
    """The cells of both kinds: the decided seeds at both budgets, the least power of two that decides all, and the time of an event."""
    cells: List[str] = []
    for model in (load.kind, f"wide-{load.kind}"):
        results = [checked(text, load, model, 1 << GREATEST, limit) for text in texts]
        budgets = [least_budget(text, load, model, limit) for text, result in zip(texts, results) if result.is_decided]
        decided = [f"{sum(budget <= most for budget in budgets)}" for most in (4096, 1 << GREATEST)]
        late = sum(result.is_late for result in results)
        decided[1] += f", {late} late" if late else ""
        nothing = checked("", load, model, 1 << GREATEST, limit).seconds
        events = sum(text.count("\n") for text in texts)
        each = 1e6 * (sum(result.seconds for result in results) - nothing * len(texts)) / events
        are_all = len(budgets) == len(texts)
        cells += [*decided, str(max(budgets)) if are_all else "", f"{each:.1f} us" if are_all else ""]
    return cells


def main() -> None:
    asked = argparse.ArgumentParser(description=__doc__.split("\n", 1)[1], formatter_class=argparse.RawDescriptionHelpFormatter)
    asked.add_argument("--seeds", type=int, default=2)
    asked.add_argument("--ops", type=int, default=1000)
    asked.add_argument("--seconds", type=int, default=10)
    asked.add_argument("--kind", choices=sorted(UPDATES), action="append")
    asked.add_argument("--clients", type=lambda word: [int(part) for part in word.split(",")], default=list(CLIENTS))
    given = asked.parse_args()
    print(f"Of {given.seeds} seeds each:\n")
    print("| Load | 4,096 | 65,536 | least | an event | wide: 4,096 | 65,536 | least | an event |\n|---|---|---|---|---|---|---|---|---|")
    loads = [Load(kind, clients, reads, timeouts) for kind in given.kind or UPDATES for clients in given.clients
             for reads in READS for timeouts in TIMEOUTS]
    for load in loads:
        texts = ["".join(events_of(load, given.ops, seed)) for seed in range(given.seeds)]
        name = f"{load.kind}, {load.clients} clients, {load.reads:.0%} reads, {load.timeouts:.0%} timeouts"
        print("| " + " | ".join([name, *row_of(load, texts, given.seconds)]) + " |", flush=True)


if __name__ == "__main__":
    main()
