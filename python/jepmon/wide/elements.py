"""The elements of a queue, ordered by the invocations of their enqueues, all of which return. A search removes elements from the list, and
puts them back in the reverse order."""
from __future__ import annotations

import collections
from typing import Counter, Dict, Iterator, List, Optional, cast

from .operation import NEVER, Op


class Elements:
    def __init__(self) -> None:
        self._ops: List[Optional[Op]] = [None]  # the first entry is the beginning of the list, and not an element
        self._next: List[int] = [0]  # the next element of each; 0 if there is none
        self._before: List[int] = [0]
        self._place: Dict[int, int] = {}
        self.held: Counter[int] = collections.Counter()  # the number of elements with each value

    def append(self, op: Op) -> None:
        place, last = len(self._ops), self._before[0]
        self._ops.append(op)
        self._next.append(0)
        self._before.append(last)
        self._next[last] = self._before[0] = place
        self._place[op.id] = place
        self.held[cast(int, op.part)] += 1

    def pop(self, op: Op) -> None:
        """Undoes an append."""
        last = self._before[-1]
        self._next[last], self._before[0] = 0, last
        del self._ops[-1], self._next[-1], self._before[-1], self._place[op.id]
        self.held[cast(int, op.part)] -= 1

    def remove(self, op: Op) -> None:
        place = self._place[op.id]
        before, following = self._before[place], self._next[place]
        self._next[before], self._before[following] = following, before
        self.held[cast(int, op.part)] -= 1

    def put_back(self, op: Op) -> None:
        """Undoes a remove."""
        place = self._place[op.id]
        self._next[self._before[place]] = self._before[self._next[place]] = place
        self.held[cast(int, op.part)] += 1

    def left(self, place: int = 0) -> Iterator[Op]:
        """The remaining elements behind a place."""
        while self._next[place]:
            place = self._next[place]
            yield cast(Op, self._ops[place])

    def front(self) -> List[Op]:
        """The elements that can be first."""
        found: List[Op] = []
        bound = NEVER
        for op in self.left():
            if op.invoked > bound:
                break
            found.append(op)
            bound = min(bound, op.completed)
        return found

    def has_within(self, outer: Op) -> bool:
        """Whether the queue has the same value once more, by an enqueue that begins later than this one and returns earlier."""
        if not self.held[cast(int, outer.part)]:
            return False
        for op in self.left(self._place.get(outer.id, 0)):
            if op.invoked > outer.completed:
                return False
            if op.part == outer.part and op.id != outer.id and op.completed < outer.completed:
                return True
        return False
