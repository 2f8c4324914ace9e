"""Operations, recorded in any order, as events in the order of their times.

If one operation returns at the time at which another one is called, both count as open at once: the invocation comes before the completion.
So the tool does not invent an order, and a coarse clock does not make a legal history illegal. If a client invokes an operation while an
earlier operation of the client is open, the new operation gets a process of its own: linearizability does not depend on the client. An
operation that never returned stays open, or ends as an :info when its client continues.
"""
from __future__ import annotations

import collections
import heapq
from typing import Any, Dict, Iterable, Iterator, List, NamedTuple, Optional, Tuple, Union

from ..history.kinds import THREADS
from ..history.sorted_rows import SortedRows

Time = Union[int, float]
FAR, FAR_ALONE = 4, 100  # the greatest distance of agreeing clients, in times of their work; with one operation each


class Moment(NamedTuple):
    """An event: its type, its process, and its data as the caller gave them."""

    kind: str
    process: int
    given: Any  # None for the end of an operation that never returned


class Timeline:
    """Takes operations, and gives their events."""

    def __init__(self) -> None:
        self._begins, self._ends = SortedRows(), SortedRows()
        self._homes: Dict[Any, int] = {}  # the seat of each client
        self._spans: Dict[Any, List[Time]] = {}  # for each client: the call of its first operation, and the return of its last one
        self._count = 0
        self.overlaps = 0  # the number of operations that were invoked while another one of their client was open

    def operation(self, client: Any, call: Time, ends: Optional[Time], outcome: str, begun: Any, ended: Any) -> None:
        """Takes an operation: its client, which may be None; the times of its call and of its return, if it did; "ok", "fail" or "info";
        and the data of its two events, as marshal takes it."""
        home = -1 if client is None else self._homes.setdefault(client, len(self._homes))
        number, self._count = self._count, self._count + 1
        span = self._spans.setdefault(client, [call, call])
        span[0], span[1] = min(span[0], call), max(span[1], call if ends is None else ends)
        self._begins.put((call, number, home, "" if ends is not None else outcome, begun))
        if ends is not None:
            self._ends.put((ends, number, outcome, ended))

    def are_apart(self) -> bool:
        """Whether, by their times, some clients had long ended when others began, as if their clocks differed."""
        return are_apart(((first, last) for first, last in self._spans.values()), self._count)

    def begun(self) -> Iterator[Tuple[Time, Any]]:
        """The time of each call, and the data of the invocation, in the order of the calls."""
        for call, _, _, _, given in self._begins:
            yield call, given

    def moments(self, earlier: Time = 0, later: Time = 0) -> Iterator[Moment]:
        """The events in the order of their times. Each call becomes earlier by `earlier`, and each return becomes later by `later`. After
        the :info of a process its thread continues as another process, by jepmon's rule."""
        stay_open, seats = True, _Seats(len(self._homes))
        collections.deque(self._on_seats(seats, stay_open, earlier + later), 0)
        if seats.most > THREADS:
            stay_open, seats = False, _Seats(len(self._homes))
            collections.deque(self._on_seats(seats, stay_open, earlier + later), 0)
        self.overlaps, threads = seats.overlaps, seats.count
        current = list(range(threads))
        for seat, kind, given in self._on_seats(_Seats(len(self._homes)), stay_open, earlier + later):
            yield Moment(kind, current[seat], given)
            if kind == "info":
                current[seat] += threads

    def _on_seats(self, seats: _Seats, stay_open: bool, apart: Time) -> Iterator[Tuple[int, str, Any]]:
        """The events, each with the seat of its operation. An operation that never returned stays open until its client continues, or ends
        at once. A call comes after the returns that were earlier by more than this amount."""
        waiting: Dict[int, List[Tuple[int, str]]] = {}
        ends = iter(self._ends)
        end = next(ends, None)
        for call, number, home, outcome, given in self._begins:
            while end is not None and end[0] < call - apart:
                yield seats.leave(end[1]), end[2], end[3]
                end = next(ends, None)
            for before, ended in waiting.pop(home, ()) if waiting else ():
                yield seats.leave(before), ended, None
            yield seats.take(number, home), "invoke", given
            if outcome and (not stay_open or outcome == "fail"):
                yield seats.leave(number), outcome, None
            elif outcome and home >= 0:
                waiting.setdefault(home, []).append((number, outcome))
        while end is not None:
            yield seats.leave(end[1]), end[2], end[3]
            end = next(ends, None)


def are_apart(spans: Iterable[Tuple[Time, Time]], operations: int) -> bool:
    """Whether some clients, which worked within these times and did this number of `operations`, had long ended when others began."""
    groups: List[List[Time]] = []
    for first, last in sorted(spans):
        if groups and first <= groups[-1][1]:
            groups[-1][1] = max(groups[-1][1], last)
        else:
            groups.append([first, last])
    longest = max((last - first for first, last in groups), default=0)
    gaps = (after[0] - before[1] for before, after in zip(groups, groups[1:]))
    return len(groups) > 1 and min(gaps) > (FAR if operations > len(groups) else FAR_ALONE) * max(longest, 1)


class _Seats:
    """Gives each open operation a seat: that of its client if it is free, otherwise another free seat or a new one."""

    def __init__(self, homes: int) -> None:
        self.count = homes
        self.most = 0  # the greatest number of operations that were open at once
        self.overlaps = 0
        self._homes = homes
        self._free_homes = set(range(homes))
        self._free: List[int] = []  # free seats that belong to no client
        self._seats: Dict[int, int] = {}

    def take(self, number: int, home: int) -> int:
        if home in self._free_homes:
            self._free_homes.discard(home)
            seat = home
        else:
            self.overlaps += home >= 0
            if self._free:
                seat = heapq.heappop(self._free)
            else:
                seat, self.count = self.count, self.count + 1
        self._seats[number] = seat
        self.most = max(self.most, len(self._seats))
        return seat

    def leave(self, number: int) -> int:
        seat = self._seats.pop(number)
        if seat < self._homes:
            self._free_homes.add(seat)
        else:
            heapq.heappush(self._free, seat)
        return seat
