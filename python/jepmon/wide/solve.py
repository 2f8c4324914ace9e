"""Finds an order of the operations of a prefix, or the result that there is none, by the search for the key's model."""
from __future__ import annotations

from typing import Callable, Dict, Sequence

from . import bags, fifo, locks, registers, sets, zones
from .operation import Answer, Clock, Conflict, Op, Order, fits, says_nothing, with_silent

Solver = Callable[[Sequence[Op], Clock], Answer]


def of_register(ops: Sequence[Op], clock: Clock) -> Answer:
    kept = zones.needed(ops)
    try:
        return zones.solve(kept, clock)
    except zones.NotUnique:
        return registers.solve(kept, clock)


SOLVERS: Dict[str, Solver] = {
    "register": of_register,
    "cas-register": of_register,
    "mutex": locks.solve,
    "fifo-queue": fifo.solve,
    "unordered-queue": bags.solve,
    "set": sets.solve,
}


def solve(model: str, ops: Sequence[Op], clock: Clock) -> Answer:
    """Runs the search. Raises OutOfTime if the time for the search is up."""
    strange = [op.id for op in ops if op.is_done and not fits(op, model)]
    if strange:
        return Conflict(strange[:1])
    told = [op for op in ops if fits(op, model) and not says_nothing(op, model)]
    answer = SOLVERS[model](told, clock)
    silent = [op for op in ops if says_nothing(op, model)]
    if isinstance(answer, Conflict) or not silent:
        return answer
    by_id = {op.id: op for op in told}
    return Order(with_silent([by_id[id] for id in answer.ids], silent))
