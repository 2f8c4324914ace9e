"""Units of sets: a read is removed alone. An add is removed alone if an earlier add had added its value. A value is removed with all its
adds, and from each answer."""
from __future__ import annotations

import collections
from typing import Dict, FrozenSet, List, Sequence

from ..history import Operation
from .units import Unit, begin, end


def units(operations: Sequence[Operation], places: Sequence[int]) -> List[Unit]:
    adds: Dict[int, List[int]] = collections.defaultdict(list)
    reads: List[int] = []
    for place in places:
        event = operations[place].invocation
        if event.name == "read":
            reads.append(place)
        elif isinstance(event.value, int):
            adds[event.value].append(place)
    returned = {value: min(end(operations[place]) for place in added) for value, added in adds.items()}
    again = [place for value, added in adds.items() for place in added if returned[value] < begin(operations[place])]
    for place in reads:
        for value in sorted(members(operations[place])):
            adds.setdefault(value, [])
    return [Unit(tuple(added), (value,)) for value, added in adds.items()] + [Unit((place,)) for place in reads + again]


def members(read: Operation) -> FrozenSet[int]:
    """The members that a read has answered."""
    answer = read.completion.value if read.completion is not None else None
    return answer if isinstance(answer, frozenset) else frozenset()
