"""The number of threads that a history needs, and its processes by jepmon's rule.

After an :info of process p its thread continues as process p + threads. Jepsen has the same rule, so its own processes mostly fit.
"""
from __future__ import annotations

import heapq
from typing import Dict, NamedTuple

from .events import History
from .refusal import TooMany


class Processes(NamedTuple):
    """The threads that a history needs, and whether its processes get new numbers."""

    threads: int
    renumbered: bool


def processes_of(history: History, most: int) -> Processes:
    """Jepsen's own processes with the least number of threads that fits them. If no number up to `most` fits, other processes."""
    threads = history.lives.fewest()
    if threads is not None and threads <= most:
        return Processes(threads, False)
    if history.most_open > most:
        raise TooMany(f"{history.most_open} operations are open at once, and jepmon has {most} threads")
    return Processes(history.most_open, True)


class OwnProcesses:
    """Gives each event the process that it has in the file."""

    def process_of(self, kind: str, process: int) -> int:
        return process


class OnThreads(OwnProcesses):
    """The process of each event, one after another, with n threads. Each operation gets the lowest free thread.

    Linearizability does not depend on the process of an operation. It depends only on which operations were open at once.
    """

    def __init__(self, threads: int) -> None:
        self._threads = threads
        self._current = list(range(threads))
        self._free = list(range(threads))
        self._thread_of: Dict[int, int] = {}

    def process_of(self, kind: str, process: int) -> int:
        if kind == ":invoke":
            self._thread_of[process] = heapq.heappop(self._free)
            return self._current[self._thread_of[process]]
        thread = self._thread_of.pop(process)
        heapq.heappush(self._free, thread)
        current = self._current[thread]
        if kind == ":info":
            self._current[thread] += self._threads
        return current
