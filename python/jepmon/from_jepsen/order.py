"""Tests whether the events of a file are in the order in which they took place, by their :index and their :time.

An :index that rises is the recorder's own order, also if the times differ: Jepsen reads the clock a moment before it writes an event.
Without such an :index, a time that goes back says that the lines are in another order. If a history has neither, and the events of each
client are together, the order is not known.
"""
from __future__ import annotations

import itertools
import operator
import re
from typing import Optional, Sequence

from ..edn import Value, integer, shown, string
from ..forms.account import Account
from ..forms.clock import Clock, Time
from ..forms.order import Blocks
from .refusal import OutOfOrder, Refusal, refuse

__all__ = ["Order", "Time", "Times"]
LINES = "--order lines takes the events in the order of their lines"
NUMBER = re.compile(r"[+-]?[0-9]{1,20}(\.[0-9]{0,20})?([eE][+-]?[0-9]{1,2})?M?")


def number_of(value: Optional[Value]) -> Optional[Time]:
    """The number in a field. A time may have a fraction."""
    number = integer(value)
    if number is not None or not isinstance(value, str) or not NUMBER.fullmatch(value):
        return number
    return float(value.rstrip("M"))


class Times:
    """Reads each :time: a number, or an instant such as #inst "2026-11-30T09:00:00.001Z". All times of a history must be of one kind."""

    def __init__(self) -> None:
        self._clock = Clock(Account())
        self._are_numbers = False

    def of(self, line: int, value: Optional[Value]) -> Optional[Time]:
        """Returns the time in a field. None if there is none."""
        if value is None or value == "nil":
            return None
        number = number_of(value)
        if number is not None and self._are_numbers:
            return number
        self._are_numbers = number is not None
        if number is None and not (isinstance(value, str) and value[0] == '"'):
            refuse(line, f"the :time {shown(value, 60)} is none: a number, or an instant such as #inst \"2026-11-30T09:00:00.001Z\"; {LINES}")
        try:
            return self._clock.time(line, string(value) if number is None else number, None)  # type: ignore[arg-type]
        except Refusal as fault:
            raise Refusal(f"{fault}; {LINES}") from fault


class Order:
    """Follows the events of clients in the order of the file."""

    def __init__(self, blocks: Blocks) -> None:
        self.times = Times()
        self._blocks = blocks
        self.back = 0  # how often the time went back while the :index rose
        self.most: Time = 0  # the most by which the time went back
        self.first = 0  # the line at which it first went back
        self._is_indexed = True  # whether each event has an :index
        self._index = -1
        self._time: Optional[Time] = None  # the latest time

    def take(self, line: int, process: int, index: Optional[int], time: Optional[Time]) -> None:
        """Takes the next event. Raises OutOfOrder if it is not later than the events before it."""
        self._blocks.take(process, line, time)
        if index is None:
            self._is_indexed = False
        elif index <= self._index:
            raise OutOfOrder(f"line {line}: the :index goes from {self._index} to {index}")
        else:
            self._index = index
        if time is not None and self._time is not None and time < self._time:
            self.back, self.most, self.first = self.back + 1, max(self.most, self._time - time), self.first or line
        elif time is not None:
            self._time = time
        if self.back and not self._is_indexed:
            raise OutOfOrder(f"line {self.first}: the :time goes back, and not each event has an :index")

    def take_run(self, line: int, processes: Sequence[int], indices: Sequence[int], times: Sequence[int]) -> bool:
        """Takes this number of events at once, from this line on. Returns whether each :index and each :time rises. If not, no event was
        taken."""
        if not (all(map(operator.lt, indices, indices[1:])) and self._index < indices[0] if indices else True) or not rise(times, self._time):
            return False
        if indices:
            self._index = indices[-1]
        else:
            self._is_indexed = False
        if times:
            self._time = self.times.of(line, str(times[-1]))
        self._blocks.take_run(processes, line, times)
        return not self.back or self._is_indexed

    def close(self, account: Account) -> None:
        """Tests that there is an order, or records in the account the guessed order."""
        if not self._is_indexed:
            self._blocks.close(account)


def rise(numbers: Sequence[int], before: Optional[Time]) -> bool:
    """Whether no number is less than the one before it."""
    if not numbers:
        return True
    return (before is None or before <= numbers[0]) and all(map(operator.le, numbers, itertools.islice(numbers, 1, None)))
