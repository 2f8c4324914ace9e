"""The effects of strikes on clients. A client is paused at any point, also while it holds a lock. Or it crashes before it learns the result
of its operation."""
from __future__ import annotations

import threading
from typing import Any, Callable, Counter, Set

from .errors import Crashed
from .server import Client


class Crew:
    """The clients of a test, by their numbers."""

    def __init__(self) -> None:
        self.size = 0
        self._changed = threading.Condition()
        self._paused: Counter[int] = Counter()  # for each paused client: the number of strikes that pause it
        self._crashed: Set[int] = set()

    def pause(self, number: int) -> None:
        with self._changed:
            self._paused[number] += 1

    def go_on(self, number: int) -> None:
        with self._changed:
            self._paused[number] -= 1
            self._changed.notify_all()

    def crash(self, number: int) -> None:
        """Crashes a client at its next step."""
        with self._changed:
            self._crashed.add(number)

    def step(self, number: int, is_asking: bool) -> None:
        """Makes the client wait while it is paused. Raises if the client has crashed, unless it has not sent its request yet."""
        with self._changed:
            while self._paused[number] > 0:
                self._changed.wait()
            if not is_asking and number in self._crashed:
                self._crashed.discard(number)
                raise Crashed(f"client {number} has crashed")


class Mortal(Client):
    """A client that strikes can reach: before and after each of its operations."""

    def __init__(self, client: Client, crew: Crew, number: int) -> None:
        self.client, self.crew, self.number = client, crew, number
        self.work = client.work
        self.has_crashed = False

    def __getattr__(self, name: str) -> Any:
        return self._struck(getattr(self.client, name))

    def rest(self, seconds: float) -> None:
        self._struck(self.client.rest)(seconds)

    def close(self) -> None:
        self.client.close()

    def _struck(self, what: Callable[..., Any]) -> Callable[..., Any]:
        def done(*words: Any) -> Any:
            if self.has_crashed:
                raise Crashed(f"client {self.number} has crashed")
            self.crew.step(self.number, True)
            answer = what(*words)
            try:
                self.crew.step(self.number, False)
            except Crashed:
                self.has_crashed = True
                raise
            return answer
        return done
