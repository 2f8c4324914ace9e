"""The times of clients' operations: operations per second, and busy or calm phases."""
from __future__ import annotations

import random
import threading
import time
from typing import NamedTuple

LASTING = (1.0, 4.0)  # seconds of a phase


class Phase(NamedTuple):
    end: float
    speed: float  # the factor by which the rate is greater
    changes: float  # the share of operations that change something


KINDS = ((0.5, 0.5), (1.5, 0.5), (1.0, 0.8), (1.0, 0.25))  # calm, busy, mostly changes, mostly reads


class Phases:
    """The phases of a run, which all clients share; drawn from the seed."""

    def __init__(self, seed: int) -> None:
        self._draws = random.Random(f"phases {seed}")
        self._lock = threading.Lock()
        self._phase = Phase(0.0, 1.0, 0.5)

    def at(self, seconds: float) -> Phase:
        with self._lock:
            while seconds >= self._phase.end:
                self._phase = Phase(self._phase.end + self._draws.uniform(*LASTING), *KINDS[self._draws.randrange(len(KINDS))])
            return self._phase


class Pace:
    """Makes one client do this number of operations per second. 0 means as many as it can."""

    def __init__(self, draws: random.Random) -> None:
        self._draws = draws
        self._next = time.monotonic()

    def wait(self, rate: float) -> None:
        if rate == 0:
            return
        now = time.monotonic()
        self._next = max(self._next + self._draws.uniform(0.0, 2.0) / rate, now - 0.1)  # the client makes up for late operations
        if self._next > now:
            time.sleep(self._next - now)
