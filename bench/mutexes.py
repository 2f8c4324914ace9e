#!/usr/bin/env python3
"""Counts the loads of one busy mutex that the plain kind decides: `mutexes.py [--seeds N] [--ops N]`; JEPMON names the program.

A load is one correct mutex, whose clients never rest. At each step one client, drawn at random, invokes an operation, or its operation
takes place, or it returns or times out. A client that holds the mutex releases it next. An acquire that times out has not taken place, since
a mutex that nobody knows to be held is held for good. A release that times out has taken place. A row has a load, the timed-out operations
of all its seeds, and how many seeds `jepmon check` decides at the budgets 4,096 and 65,536.
"""
import argparse
import pathlib
import random
import subprocess
import sys
from typing import List

sys.path.insert(0, str(pathlib.Path(__file__).resolve().parent.parent / "python"))

from jepmon.program import find_program  # noqa: E402

CLIENTS = (5, 8, 12, 16, 20)
TIMEOUTS = (0.0, 0.01, 0.05)
BUDGETS = (4096, 65536)


class Client:
    """A client, its open operation, and whether it holds the mutex."""

    def __init__(self, process: int) -> None:
        self.process = process
        self.name = ""  # of the open operation
        self.took_place = self.holds = False

    def told(self, kind: str) -> str:
        return f"{{:type :{kind}, :process {self.process}, :f :{self.name}, :value [7 nil]}}\n"


def events_of(clients: int, timeouts: float, operations: int, seed: int) -> List[str]:
    """The events of a load, a line each."""
    draw = random.Random(f"{clients} {timeouts} {seed}")
    everybody = [Client(process) for process in range(clients)]
    events: List[str] = []
    is_held, invoked = False, 0
    while invoked < operations:
        client = draw.choice(everybody)
        if not client.name:
            client.name, client.took_place = "release" if client.holds else "acquire", False
            events.append(client.told("invoke"))
            invoked += 1
        elif client.name == "acquire" and not client.took_place and draw.random() < timeouts:
            events.append(client.told("info"))
            client.process, client.name = client.process + clients, ""
        elif not client.took_place:
            client.took_place = client.name == "release" or not is_held
            is_held = client.name == "acquire" if client.took_place else is_held
        else:
            client.holds = client.name == "acquire"
            is_late = client.name == "release" and draw.random() < timeouts
            events.append(client.told("info" if is_late else "ok"))
            client.process, client.name = client.process + clients * is_late, ""
    return events


def is_decided(text: str, clients: int, budget: int) -> bool:
    words = [find_program(), "check", "--model", "mutex", "--concurrency", str(clients), "--budget", str(budget), "-"]
    status = subprocess.run(words, input=text.encode(), stdout=subprocess.DEVNULL, stderr=subprocess.DEVNULL).returncode
    if status not in (0, 2):
        raise SystemExit(f"{' '.join(words)}: status {status}, of a correct load")
    return status == 0


def main() -> None:
    asked = argparse.ArgumentParser(description=__doc__.split("\n", 1)[1], formatter_class=argparse.RawDescriptionHelpFormatter)
    asked.add_argument("--seeds", type=int, default=3)
    asked.add_argument("--ops", type=int, default=500)
    given = asked.parse_args()
    print("| Clients | Timeouts | Timed out | 4,096 | 65,536 |\n|---|---|---|---|---|")
    for clients in CLIENTS:
        for timeouts in TIMEOUTS:
            loads = [events_of(clients, timeouts, given.ops, seed) for seed in range(given.seeds)]
            late = sum(event.startswith("{:type :info") for events in loads for event in events)
            decided = [sum(is_decided("".join(events), clients, budget) for events in loads) for budget in BUDGETS]
            print(f"| {clients} | {timeouts:.0%} | {late} | {decided[0]} | {decided[1]} |", flush=True)


if __name__ == "__main__":
    main()
