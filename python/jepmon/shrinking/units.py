"""Units: operations that are removed from a history together."""
from __future__ import annotations

from typing import Iterable, List, NamedTuple, Sequence, Set, Tuple

from ..history import Operation

NEVER = 1 << 62  # the end of an operation that has not ended


class Unit(NamedTuple):
    """Operations that are removed together. If a unit drags other units, these are removed with it. Any number of the units of one history
    may be removed at once. Operations are named by their places in the list from which the units were made, and units by their places in
    the list of units."""

    operations: Tuple[int, ...]
    values: Tuple[int, ...] = ()  # for a set: these values are removed from each answer
    drags: Tuple[int, ...] = ()


def begin(operation: Operation) -> int:
    return operation.invocation.index


def end(operation: Operation) -> int:
    """The index of the event at which the operation has certainly taken place. An operation that is open, or has timed out, may take place
    at any later moment."""
    return operation.completion.index if operation.completion is not None and operation.outcome == "ok" else NEVER


def precedes(first: Operation, second: Operation) -> bool:
    return end(first) < begin(second)


def with_dragged(units: Sequence[Unit], chosen: Iterable[int]) -> Set[int]:
    """The units that are removed with the chosen ones."""
    out: Set[int] = set()
    todo: List[int] = list(chosen)
    while todo:
        place = todo.pop()
        if place not in out:
            out.add(place)
            todo.extend(units[place].drags)
    return out


def dragging(units: Sequence[Unit], kept: Iterable[int]) -> Set[int]:
    """Returns the units that can't be removed if the units `kept` are kept: they drag one of these units."""
    draggers: List[List[int]] = [[] for _ in units]
    for place, unit in enumerate(units):
        for dragged in unit.drags:
            draggers[dragged].append(place)
    found: Set[int] = set()
    todo = list(kept)
    while todo:
        place = todo.pop()
        if place not in found:
            found.add(place)
            todo.extend(draggers[place])
    return found
