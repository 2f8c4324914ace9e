"""Units of queues: a value is removed with its enqueues and dequeues."""
from __future__ import annotations

import collections
from typing import Dict, Iterable, List, Sequence

from ..history import Operation
from .units import Unit, end


def by_value(operations: Sequence[Operation], places: Iterable[int], name: str) -> Dict[int, List[int]]:
    """The enqueues of each value, or the dequeues that have answered it."""
    found: Dict[int, List[int]] = collections.defaultdict(list)
    for place in places:
        operation = operations[place]
        event = operation.invocation if name == "enqueue" else operation.completion
        if operation.invocation.name == name and event is not None and isinstance(event.value, int):
            found[event.value].append(place)
    return found


def of_fifo_queue(operations: Sequence[Operation], places: Sequence[int]) -> List[Unit]:
    """A unit for each value, with all its enqueues and dequeues. There is also a unit for each dequeue without an answer. This unit drags
    each value that the dequeue may have taken: each value with more enqueues than dequeues that have answered it."""
    enqueues, dequeues = by_value(operations, places, "enqueue"), by_value(operations, places, "dequeue")
    of_value = {value: tuple(enqueues.get(value, []) + dequeues.get(value, [])) for value in {**enqueues, **dequeues}}
    values = sorted(of_value, key=lambda value: max(of_value[value]))
    spare = tuple(number for number, value in enumerate(values) if len(enqueues.get(value, [])) > len(dequeues.get(value, [])))
    answered = {place for taken in dequeues.values() for place in taken}
    return ([Unit(of_value[value]) for value in values]
            + [Unit((place,), drags=spare) for place in places
               if operations[place].invocation.name == "dequeue" and place not in answered])


def of_unordered_queue(operations: Sequence[Operation], places: Sequence[int]) -> List[Unit]:
    """For each value, a unit of the first enqueue (by invocation) and the first dequeue (by completion), a unit of the second ones, and so
    on. Each other operation is a unit by itself."""
    enqueues, dequeues = by_value(operations, places, "enqueue"), by_value(operations, places, "dequeue")
    pairs: List[Unit] = []
    for value, taken in dequeues.items():
        in_turn = sorted(taken, key=lambda place: end(operations[place]))
        pairs += [Unit(pair) for pair in zip(enqueues.get(value, []), in_turn)]
    paired = {place for unit in pairs for place in unit.operations}
    return pairs + [Unit((place,)) for place in places if place not in paired]
