"""Units of registers: a read is removed alone, and a write with all operations that may have found its value."""
from __future__ import annotations

import bisect
import collections
from typing import Dict, List, Optional, Sequence

from ..history import Operation
from .units import NEVER, Unit, begin, end


def units(operations: Sequence[Operation], places: Sequence[int]) -> List[Unit]:
    """A unit for each operation, in this order."""
    finders = finders_of(operations, places)
    unit_of = {place: number for number, place in enumerate(places)}
    return [Unit((place,), drags=tuple(unit_of[finder] for finder in finders.get(place, ()))) for place in places]


def brought(operation: Operation) -> Optional[int]:
    """The value that an operation writes to a register: the value of a write, or the second value of a cas."""
    value = operation.invocation.value
    if operation.invocation.name == "write" and isinstance(value, int):
        return value
    return value[1] if operation.invocation.name == "cas" and isinstance(value, tuple) else None


def wanted(operation: Operation) -> Optional[int]:
    """The value that a register must hold for an operation: the answer of a read, or the value that a cas compares."""
    value = operation.invocation.value
    if operation.invocation.name == "read" and operation.outcome == "ok" and operation.completion is not None:
        value = operation.completion.value
        return value if isinstance(value, int) else None
    return value[0] if operation.invocation.name == "cas" and isinstance(value, tuple) else None


def finders_of(operations: Sequence[Operation], places: Sequence[int]) -> Dict[int, List[int]]:
    """For each operation that writes a value, the operations that may have found this value. An operation f cannot have found the value of
    a writer w if f had ended before w began. It also cannot have found this value if a third operation, which has certainly written, began
    after w had ended, and ended before f began."""
    gone = Overwrites(operations, places)
    wanting: Dict[int, List[int]] = collections.defaultdict(list)  # for each value: the operations that found it, in the order of invocations
    for place in places:
        value = wanted(operations[place])
        if value is not None:
            wanting[value].append(place)
    begins = {value: [begin(operations[place]) for place in found] for value, found in wanting.items()}
    unended: Dict[int, List[int]] = collections.defaultdict(list)  # for each value: the operations that found it, had begun and had not ended
    finders: Dict[int, List[int]] = {}
    for place in places:
        operation = operations[place]
        value, now = brought(operation), begin(operation)
        if value is not None:
            unended[value] = [finder for finder in unended[value] if end(operations[finder]) > now]
            later = begins.get(value, [])
            after, until = bisect.bisect(later, now), bisect.bisect(later, gone.after(end(operation)))
            finders[place] = unended[value] + wanting.get(value, [])[after:until]
        value = wanted(operation)
        if value is not None:
            unended[value].append(place)
    return finders


class Overwrites:
    """The time by which the value of a register is certainly overwritten."""

    def __init__(self, operations: Sequence[Operation], places: Sequence[int]) -> None:
        spans = sorted((begin(operations[place]), end(operations[place])) for place in places
                       if brought(operations[place]) is not None and end(operations[place]) < NEVER)
        self._begins = [first for first, _ in spans]
        self._earliest = [NEVER] * (len(spans) + 1)  # the earliest end of the writes that begin from this place on
        for number in range(len(spans) - 1, -1, -1):
            self._earliest[number] = min(self._earliest[number + 1], spans[number][1])

    def after(self, moment: int) -> int:
        """The earliest end of the writes that began after this moment."""
        return self._earliest[bisect.bisect(self._begins, moment)]
