"""The values that operations will need in a register after an event, and the time by which they need them."""
from __future__ import annotations

import bisect
import collections
from typing import Dict, List, Optional, Sequence, Tuple

from .operation import NEVER, Op
from .zones import needs

Soonest = Tuple[int, Optional[int]]  # the time by which a value is needed, and the value


class Later:
    """The operations that begin after an event, need a value and return."""

    def __init__(self, events: Sequence[Tuple[int, bool, Op]]) -> None:
        self.first: List[Soonest] = [(NEVER, None)] * (len(events) + 1)  # for each event: the operation that returns first among those that begin later
        self.second: List[Soonest] = list(self.first)  # for each event: the first of them that needs another value than that operation
        self.begins: Dict[int, List[int]] = collections.defaultdict(list)  # for each value: the events at which operations begin that need it
        for at in range(len(events) - 1, -1, -1):
            _, is_end, op = events[at]
            first, second, value = self.first[at + 1], self.second[at + 1], needs(op)
            if not is_end and value is not None:
                self.begins[value].append(at)
                new = op.completed, value
                if new[0] < first[0]:
                    first, second = new, second if first[1] == value else first
                elif value != first[1] and new[0] < second[0]:
                    second = new
            self.first[at], self.second[at] = first, second
        for found in self.begins.values():
            found.reverse()
        self.moments = [moment for moment, _, _ in events]

    def is_needed(self, value: int, at: int) -> bool:
        """Whether an operation that begins after this event needs the value, before another one that also begins after it, and needs
        another value, has returned."""
        begins = self.begins.get(value, [])
        place = bisect.bisect_right(begins, at)
        if place == len(begins):
            return False
        first = self.first[at + 1]
        other = first if first[1] != value else self.second[at + 1]
        return self.moments[begins[place]] < other[0]

    def is_first(self, value: int, at: int, open_one: Optional[Op]) -> bool:
        """Whether, among all operations that need a value from this event on, the one that returns first needs this value."""
        completed, first = self.first[at + 1]
        if open_one is not None and open_one.completed < completed:
            first = needs(open_one)
        return first == value
