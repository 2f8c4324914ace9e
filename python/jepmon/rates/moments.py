"""Moments of a run. Only the gaps between them matter, so a byte for each slot of time is enough, and the memory does not grow with the
number of moments."""
from __future__ import annotations

SLOT = 1_000_000  # the nanoseconds of a slot
MOST = 1 << 24  # slots: 4.6 hours of milliseconds; a longer run has wider slots
MARK = b"\x01"


class Moments:
    """Moments in nanoseconds from the begin of a run, in any order."""

    def __init__(self) -> None:
        self.slot = SLOT
        self._marks = bytearray()

    def add(self, moment: int) -> None:
        place = max(0, moment) // self.slot
        while place >= MOST:
            self._widen()
            place = moment // self.slot
        if place >= len(self._marks):
            self._marks.extend(bytes(place + 1 + len(self._marks) // 2 - len(self._marks)))
        self._marks[place] = 1

    def _widen(self) -> None:
        marks = self._marks + bytes(len(self._marks) % 2)
        self._marks = bytearray(first | second for first, second in zip(marks[::2], marks[1::2]))
        self.slot *= 2

    def after(self, moment: int) -> "int | None":
        """The first recorded moment from this moment on, exact to a slot. None if there is none."""
        place = self._marks.find(MARK, max(0, moment) // self.slot)
        return None if place < 0 else place * self.slot

    def longest_gap(self, begin: int, end: int) -> int:
        """The longest time without a recorded moment that overlaps the span from begin to end. It may reach from the last moment before the
        span to the first one after it."""
        first = self._marks.rfind(MARK, 0, max(0, begin) // self.slot + 1)
        last = self._marks.find(MARK, max(0, end) // self.slot)
        first, last = max(0, first), last if last >= 0 else max(first, end // self.slot)
        within = bytes(self._marks[first:last]).ljust(last - first, b"\0")
        return max((len(gap) + 1 for gap in within.split(MARK)), default=0) * self.slot if last > first else 0
