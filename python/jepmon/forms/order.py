"""Finds out whether the order of events is known. It may not be if some clients come behind all others, as in concatenated files: with
times the order is only that of the clocks, and without times there is no order. All times must be from one clock."""
from __future__ import annotations

import array
from typing import Any, Dict, Iterator, Optional, Sequence, Tuple

from . import Refused
from .account import ORDER, Account
from .timeline import Time, are_apart

TOGETHER = "the events of each client stand together, as in files put one behind the other, and {}"
BEHIND = "the events of some clients stand behind those of all others, as in files put one behind the other, and {}"
EITHER = "--order lines or --order times"  # the options that settle the order of events with equal times
BY_TIMES = "--order times"  # the option that settles the order of events whose times go back
ONE_CLOCK = "the times of all clients are of one clock, or of clocks that agree"
APART = "the times of all clients are of one clock, though by them some clients had long ended when others began"
SKEW = "--skew 0ms"  # the option that settles ONE_CLOCK and APART
LEAST = 4  # the order is not known only if two clients have at least this many events each


class Blocks:
    """Finds the blocks of clients: clients that have all their events behind those of all other clients. The events of a block are
    together, and its clients have no other events before or behind the block."""

    def __init__(self, is_ordered: bool = False) -> None:
        self._is_ordered = is_ordered  # whether the lines are known to be in the order of the events
        self._first: Dict[Any, int] = {}  # the place of each client's first event
        self._starts = array.array("Q")  # of each block: the place of its first event,
        self._lines = array.array("Q")  # its line,
        self._times = array.array("d")  # the time of the event before it, and the time of its own first event
        self._count = self._timed = 0  # the number of events, and of events with times
        self._latest: Time = 0

    def take(self, client: Any, line: int, time: Optional[Time]) -> None:
        """Takes the next event. O(1), amortized."""
        first = self._first.get(client)
        if first is None:
            self._first[client] = self._count
            self._starts.append(self._count)
            self._lines.append(line)
            self._times.extend((self._latest, time or 0))
        elif self._starts[-1] > first:
            self._join(first)
        self._count += 1
        if time is not None:
            self._timed += 1
            self._latest = time

    def take_run(self, clients: Sequence[Any], line: int, times: Sequence[Time]) -> None:
        """Takes events with one event in each line, from this line on. Either all have times, or none has."""
        known = set(clients)
        if known <= self._first.keys():
            self._join(min(self._first[client] for client in known))
            self._count += len(clients)
            self._timed += len(times)
            self._latest = times[-1] if times else self._latest
            return
        for place, client in enumerate(clients):
            self.take(client, line + place, times[place] if times else None)

    def close(self, account: Account) -> None:
        """Records the guess about the order. Refuses a file without any order, unless it has only a few events."""
        if self._is_ordered or len(self._starts) < 2:
            return
        if self._timed == self._count:
            account.guess(ORDER, APART if are_apart(self._spans(), self._count // 2) else ONE_CLOCK, SKEW)
            return
        is_each = len(self._starts) == len(self._first)
        how = (TOGETHER if is_each else BEHIND).format("not all have times" if self._timed else "have no times")
        if is_each and sum(size >= LEAST for size in self._sizes()) > 1:
            raise Refused(f"line {self._lines[1]}: {how}: which came first? say --order lines if the order of the lines is the order of the events")
        account.guess(ORDER, f"{how}: they are taken in the order of their lines", "--order lines")

    def _join(self, first: int) -> None:
        """Joins the last blocks, from the block with the place `first` on, to one block."""
        while self._starts[-1] > first:
            self._starts.pop()
            self._lines.pop()
            del self._times[-2:]

    def _sizes(self) -> Iterator[int]:
        """Returns the number of events of each block."""
        return (end - start for start, end in zip(self._starts, [*self._starts[1:], self._count]))

    def _spans(self) -> Iterator[Tuple[Time, Time]]:
        """The times of the first and the last event of each block."""
        return zip(self._times[1::2], [*self._times[2::2], self._latest])
