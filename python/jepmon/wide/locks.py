"""Decides locks. The search lets operations take place only when an operation returns, and then as few as possible. If one of several must
take place, the search chooses the one that returns first. Neither rule misses an order: a delayed operation may still take place until it
returns, and of two open operations the one that returns later may take place later."""
from __future__ import annotations

import heapq
from typing import Dict, List, Optional, Sequence, Set, Tuple

from .operation import Answer, Clock, Conflict, Op, Order

OTHER = {"acquire": "release", "release": "acquire"}


def solve(ops: Sequence[Op], clock: Clock) -> Answer:
    waiting: Dict[str, List[Tuple[int, int]]] = {"acquire": [], "release": []}  # the open operations, by the events at which they return
    taken: Set[int] = set()
    order: List[int] = []
    wanted = "acquire"  # the name of the operation that may take place next
    for _, is_end, op in events_of(ops):
        clock.step()
        if not is_end:
            heapq.heappush(waiting[op.name], (op.completed, op.id))
            continue
        if op.id in taken:
            continue
        for name in (OTHER[op.name], op.name) if wanted != op.name else (op.name,):
            following = soonest(waiting[name], taken)
            if following is None:
                return Conflict([op.id])
            taken.add(following)
            order.append(following)
        wanted = OTHER[op.name]
    return Order(order)


def events_of(ops: Sequence[Op]) -> List[Tuple[int, bool, Op]]:
    """Yields the events at which operations are invoked and return, in their order."""
    both = [(op.invoked, False, op) for op in ops] + [(op.completed, True, op) for op in ops if op.is_done]
    return sorted(both, key=lambda event: event[0])


def soonest(waiting: List[Tuple[int, int]], taken: Set[int]) -> Optional[int]:
    """The operation that returns first among those that have not taken place."""
    while waiting:
        _, id = heapq.heappop(waiting)
        if id not in taken:
            return id
    return None
