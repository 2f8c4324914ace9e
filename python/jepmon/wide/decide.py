"""Decides one key with the help of later events. It searches for an order of all operations. If there is none, it finds the event at which
the key is dead, an order of the operations before this event, and a part that is illegal at this event."""
from __future__ import annotations

import bisect
from typing import Iterator, List, NamedTuple, Optional, Sequence, Union

from ..history import Operation
from ..history.kinds import THREADS
from ..program import Options, ProgramError
from ..shrink import Part
from .confirmed import confirmed
from .conflicts import part_of
from .operation import Answer, Clock, Conflict, Order, OutOfTime, cut_before, front, most_open
from .solve import solve


LEAST = 5.0  # the program gets at least this many seconds, if an order was found in time


class Decided(NamedTuple):
    """The result for a key."""

    index: Optional[int]  # type: ignore[assignment]  # the event at which the key is dead; None if it is alive (tuple has a method of this name)
    order: List[int]  # an order of all operations, or of those before this event, by the index of their invocations
    part: Optional[Part]  # for a dead key: the part that is illegal by itself at that event
    is_proved: bool  # whether a proved program has said that the order is one
    options: Options  # the options of the key


def decide(operations: Sequence[Operation], options: Options, clock: Clock, program: Optional[str] = None) -> Optional[Decided]:
    """The result for a key, from its operations in the order of their invocations. None if there is no result in this time. The program
    judges the order and the part."""
    if most_open(operations) > THREADS:
        return None  # the program can't judge such a history
    try:
        found = searched(operations, options.model, clock)
        if isinstance(found, Order):
            return alive(operations, options, found.ids, clock, program)
        return dead(operations, options, found, clock, program)
    except (OutOfTime, RecursionError, MemoryError, ProgramError):
        return None


class Dead(NamedTuple):
    """The event from which on a key is dead, by the search."""

    event: int
    before: Order  # an order of the operations before the event
    conflict: Conflict


def searched(operations: Sequence[Operation], model: str, clock: Clock) -> Union[Order, Dead]:
    """The order of all operations, or the first event whose prefix has no order."""
    ends = sorted(completion.index for _, completion, _ in operations if completion is not None and completion.kind in ("ok", "fail"))
    last = ends[-1] if ends else -1

    def answer(end: int) -> Answer:
        clock.look()
        return solve(model, front(operations, end), clock)

    found = answer(last)
    if isinstance(found, Order):
        return found
    low, high, before = -1, len(ends) - 1, Order([])
    guesses = guessed(operations, ends, found)
    while high - low > 1:
        middle = next((guess for guess in guesses if low < guess < high), (low + high) // 2)
        tried = answer(ends[middle])
        if isinstance(tried, Order):
            low, before = middle, tried
        else:
            high, found = middle, tried
    return Dead(ends[high], before, found)


def guessed(operations: Sequence[Operation], ends: Sequence[int], found: Conflict) -> Iterator[int]:
    """A guess of the first prefix without an order, by the operations that stopped a search: the numbers of the ends of two prefixes, this
    one and the one before."""
    blamed = set(found.ids)
    completed = [completion.index for invocation, completion, _ in operations if completion is not None and invocation.index in blamed]
    for index in sorted(completed, reverse=True)[:1]:
        place = bisect.bisect_left(ends, index)
        yield place
        yield place - 1


def alive(operations: Sequence[Operation], options: Options, order: List[int], clock: Clock, program: Optional[str]) -> Optional[Decided]:
    said = confirmed(operations, options, order, program, max(LEAST, clock.left()))
    return Decided(None, order, None, said.is_proved, options) if said.is_order else None


def dead(operations: Sequence[Operation], options: Options, found: Dead, clock: Clock, program: Optional[str]) -> Optional[Decided]:
    said = confirmed(cut_before(operations, found.event), options, found.before.ids, program, max(LEAST, clock.left()))
    if not said.is_order:
        return None
    part = part_of(operations, options, found.event, found.conflict.ids, clock, program)
    return Decided(found.event, found.before.ids, part, said.is_proved, options) if part is not None else None
