"""The events of a key that a page shows: all events, or the events around the fatal one if the history is long."""
from __future__ import annotations

from typing import AbstractSet, List, NamedTuple, Optional, Sequence

from ..history import Event, Operation, operations
from .layout import stays

MOST = 10_000  # events on a page
AFTER = 500  # events after the fatal one, if not all events fit


class Choice(NamedTuple):
    """The shown events, and the shown operations, with those that were open before the first of these events. Then the operations of the
    smallest part that are further away, and the numbers of hidden events before and after."""

    events: Sequence[Event]
    operations: List[Operation]
    away: List[Operation]
    before: int
    after: int
    every: int  # the number of all operations


def choose(events: Sequence[Event], concurrency: int, fatal: Optional[int], part: AbstractSet[int] = frozenset(),
           most: int = MOST) -> Choice:
    """Chooses at most `most` events, with the fatal one (by its index) among them; `part` has the indices of the smallest part."""
    every = operations(events, concurrency)
    if len(events) <= most:
        return Choice(events, every, [], 0, 0, len(every))
    place = next((place for place, event in enumerate(events) if event.index == fatal), len(events) - 1)
    end = min(len(events), max(most, place + 1 + min(AFTER, most // 2)))
    chosen = events[end - most:end]
    met = [each for each in every if meets(each, chosen)]
    away = [each for each in every if each.invocation.index in part and not meets(each, chosen)]
    return Choice(chosen, met, away, end - most, len(events) - end, len(every))


def meets(operation: Operation, chosen: Sequence[Event]) -> bool:
    """Whether the operation may take place at one of these events, or has an event there."""
    first, last = chosen[0].index, chosen[-1].index
    ended = operation.completion
    return operation.invocation.index <= last and (ended is None or ended.index >= first or stays(operation))
