"""Fifo queues whose values are equal, by their definition alone (`AreTwins` in `Twins.antt`): twins are two enqueues of one value that have not
failed. The tests compare the program's kind wide-fifo-queue with it."""
from __future__ import annotations

from typing import List

from jepmon.history import Event
from jepmon.objects.configurations import UNBOUNDED, Walker

WORK = 300_000  # outcomes that are tried for one queue


class Queue:
    """One queue's history, judged by all its ends, and over at the first ok before which there are twins: `alive`, `dead I` or `over I`. It raises
    GaveUp if there are too many ends."""

    def __init__(self) -> None:
        self.status = "alive"
        self._walker = Walker("fifo-queue", UNBOUNDED, WORK)
        self._values: List[int] = []  # of enqueues that have not failed

    def take(self, event: Event) -> None:
        if self.status != "alive":
            return
        if event.kind == "ok" and len(set(self._values)) < len(self._values):
            self.status = f"over {event.index}"
            return
        self._walker.take(event)
        if self._walker.dead:
            self.status = f"dead {event.index}"
        if event.name == "enqueue" and event.kind == "invoke":
            self._values.append(event.value)
        elif event.name == "enqueue" and event.kind == "fail":
            self._values.remove(event.value)
