"""Shows the progress of a check on a terminal, in one line that is overwritten."""
from __future__ import annotations

import time
from typing import Iterator, Optional, TextIO, TypeVar

Item = TypeVar("Item")
SECONDS = 0.2  # the time between two lines


class Progress:
    """Shows the progress if there is a terminal."""

    def __init__(self, terminal: Optional[TextIO] = None) -> None:
        self._terminal = terminal if terminal is not None and terminal.isatty() else None
        self._next = time.monotonic() + 1  # a short check shows no line
        self._width = 0

    def over(self, what: str, items: Iterator[Item], count: int) -> Iterator[Item]:
        """Yields the items, and shows the share of `count` that was reached."""
        for number, item in enumerate(items):
            self.say(f"{what} {100 * number // max(1, count)} %")
            yield item
        self.clear()

    def say(self, text: str) -> None:
        if self._terminal is not None and time.monotonic() >= self._next:
            self._write(text)
            self._next = time.monotonic() + SECONDS

    def clear(self) -> None:
        if self._width:
            self._write("")

    def _write(self, text: str) -> None:
        if self._terminal is not None:
            self._terminal.write("\r" + text.ljust(self._width) + ("" if text else "\r"))
            self._terminal.flush()
            self._width = len(text)
