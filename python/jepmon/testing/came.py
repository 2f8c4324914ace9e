"""The messages of a queue that have come, if the queue delivers at least once."""
from __future__ import annotations

import threading
from typing import Set


class Came:
    """The messages that have come to any client. A dequeue takes place when a message comes for the first time."""

    def __init__(self) -> None:
        self._lock = threading.Lock()
        self._values: Set[int] = set()

    def first(self, value: int) -> bool:
        with self._lock:
            is_first = value not in self._values
            self._values.add(value)
        return is_first
