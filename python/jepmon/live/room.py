"""Limits for the operations of one object, so that the object stays below the default budget (docs/guide/BUDGETS.md)."""
from __future__ import annotations

from typing import Dict, NamedTuple, Optional

from ..history.kinds import THREADS


class Room(NamedTuple):
    """The limits of one object."""

    timeouts: Optional[int]  # after this many timed-out operations that may still take effect, writes leave the object; None: never
    most: int  # the greatest number of operations that are open at once
    counts_timeouts: bool  # whether operations that timed out count as open

    def is_left(self, timeouts: int) -> bool:
        """Returns whether writes leave the object after this number of timeouts."""
        return self.timeouts is not None and timeouts >= self.timeouts

    def holds(self, pending: int, timeouts: int) -> bool:
        """Returns whether one more operation may begin. An object without open operations is never full."""
        return pending == 0 or self.at_once(pending, timeouts) < self.most

    def at_once(self, pending: int, timeouts: int) -> int:
        return pending + timeouts if self.counts_timeouts else pending


BY_ENDS = Room(3, 6, True)  # for each model that is judged by ends, except a mutex
LOCKS = Room(8, 12, True)  # for a mutex: thirteen operations, open or timed out, have at most 3,432 ends
QUEUES = Room(8, THREADS, False)  # leaves after some timeouts, since a timed-out dequeue may have taken a message, which hides a loss
WIDE: Dict[str, Room] = {
    "wide-register": Room(8, 10, False), "wide-cas-register": Room(8, 8, False), "wide-set": Room(None, THREADS, False),
    "wide-fifo-queue": QUEUES, "wide-unordered-queue": QUEUES,
}


def room_of(kind: str) -> Room:
    """The room of an object of this kind of the program."""
    return LOCKS if kind == "mutex" else WIDE.get(kind, BY_ENDS)
