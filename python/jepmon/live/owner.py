"""The process of a live test. A process that was forked from it has a copy of the monitor, which does not get the events of the other
processes. So its events would make a history that never happened."""
from __future__ import annotations

import os
import threading
from typing import NoReturn

CURE = "let threads of that process do the operations, or send it their results"


class OwnedLock:
    """A lock that only its own process may take. In another process it raises a ValueError, since a lock that another thread held at a fork
    is never free in the new process."""

    def __init__(self) -> None:
        self._process, self._lock = os.getpid(), threading.Lock()
        self.acquire, self.release = self._lock.acquire, self._lock.release

    @property
    def is_here(self) -> bool:
        return os.getpid() == self._process

    def __enter__(self) -> None:
        if os.getpid() != self._process:
            raise ValueError(f"this monitor is of process {self._process}, and this is process {os.getpid()}: {CURE}")
        self._lock.acquire()

    def __exit__(self, *_: object) -> None:
        self._lock.release()


def not_sent(monitor: object) -> NoReturn:
    """The exception for pickling or copying a monitor."""
    raise TypeError(f"a {type(monitor).__name__} can't be copied or sent to another process: {CURE}")
