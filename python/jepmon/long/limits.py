"""The part of one program's limits that a test without an end uses."""
from __future__ import annotations

from typing import NamedTuple, Optional

from ..history import kinds

MOST_EVENTS = kinds.EVENTS // 4 * 3  # the remaining quarter is for later reads, and for operations that are open when the objects are replaced


class Limits(NamedTuple):
    """The limits of one part of a test, which is one program."""

    events: int  # after this many events the objects of the part are replaced
    keys: int
    threads: int  # the greatest number of operations that are open at once

    @property
    def last_events(self) -> int:
        """Returns the number of events after which no operation begins on a replaced object."""
        return self.events + self.events // 4

    @property
    def share(self) -> int:
        """The number of operations of handles that may be open at once. The others are for objects that a client holds, such as a lock that
        it has to release."""
        return max(1, self.threads // 4 * 3)


def limits(events: int, keys: int, threads: int) -> Limits:
    for name, given, most in (("events", events, MOST_EVENTS), ("keys", keys, len(kinds.KEYS)), ("concurrency", threads, kinds.THREADS)):
        if isinstance(given, bool) or not isinstance(given, int) or not 1 <= given <= most:
            raise ValueError(f"{name} of a part is a number from 1 to {most}, not {given!r}")
    return Limits(events, keys, threads)


def changes_of(changes: Optional[int]) -> Optional[int]:
    """A number of changes, after which an object is replaced."""
    if changes is not None and changes < 1:
        raise ValueError(f"changes is a number from 1 on, not {changes}")
    return changes
