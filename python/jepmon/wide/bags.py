"""Decides unordered queues: each value is judged by itself. It is always right to let an enqueue take place at its invocation, and a
dequeue at its completion. So there is an order if and only if, at each moment and for each value, at most as many dequeues have returned as
enqueues were invoked."""
from __future__ import annotations

import collections
from typing import Counter, List, Sequence, Tuple

from .operation import Answer, Clock, Conflict, Op, Order, by_moments


def solve(ops: Sequence[Op], clock: Clock) -> Answer:
    placed: List[Tuple[int, int, Op]] = [(op.invoked, 0, op) for op in ops if op.name == "enqueue"]
    placed += [(op.completed, 0, op) for op in ops if op.name == "dequeue" and op.is_done]
    placed.sort(key=lambda each: each[0])
    held: Counter[int] = collections.Counter()
    for _, _, op in placed:
        clock.step()
        if op.name == "enqueue":
            held[value_of(op.part)] += 1
            continue
        value = value_of(op.answer)
        held[value] -= 1
        if held[value] < 0:
            return Conflict([op.id])
    return Order(by_moments(placed))


def value_of(part: object) -> int:
    assert isinstance(part, int)
    return part
