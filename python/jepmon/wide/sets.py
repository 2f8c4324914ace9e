"""Decides sets: the answers of reads show the order of the reads, and the two reads between which each value was first added. So each
operation has a level. A read with answer k, in ascending order, has the level 2k + 1. An operation that brings in a member that is new in
answer k has at least the level 2k. If an operation begins after another one has ended, its level is at least as great. One pass finds the
least levels with these properties. If these levels do not fit, no levels do."""
from __future__ import annotations

from typing import Dict, FrozenSet, List, Optional, Sequence, Tuple, cast

from .operation import Answer, Clock, Conflict, Op, Order, by_moments
from .locks import events_of

Answered = FrozenSet[int]


class Levels:
    """The facts in the answers of reads."""

    def __init__(self, reads: Sequence[Op]) -> None:
        self.read_of: Dict[Answered, Op] = {}  # one read of each answer
        for op in reads:
            self.read_of.setdefault(cast(Answered, op.answer), op)
        self.answers = sorted(self.read_of, key=len)
        self.number = {answer: number for number, answer in enumerate(self.answers)}
        self.of_value: Dict[int, int] = {}  # for each member: the answer in which it is new

    def find(self, clock: Clock) -> Optional[Conflict]:
        """Finds the new members of each answer. Returns a Conflict if there are two answers of which none contains the other."""
        before: Answered = frozenset()
        for number, answer in enumerate(self.answers):
            clock.step()
            if not before <= answer:
                return Conflict([self.read_of[before].id, self.read_of[answer].id])
            for value in answer - before:
                self.of_value[value] = number
            before = answer
        return None

    def least(self, op: Op) -> int:
        if op.name == "read":
            return 2 * self.number[cast(Answered, op.answer)] + 1
        return 2 * self.of_value.get(cast(int, op.part), len(self.answers))


def solve(ops: Sequence[Op], clock: Clock) -> Answer:
    levels = Levels([op for op in ops if op.name == "read" and op.is_done])
    conflict = levels.find(clock)
    if conflict is not None:
        return conflict
    kept = [op for op in ops if op.is_done or op.name == "add" and op.part in levels.of_value]
    level: Dict[int, int] = {}
    cause: Dict[int, Op] = {}  # the other operation from which an operation has its level, if there is one
    height, highest = 0, None  # type: int, Optional[Op]
    for _, is_end, op in events_of(kept):
        clock.step()
        if is_end:
            if level[op.id] > height or highest is None:
                height, highest = level[op.id], cause.get(op.id, op)
            continue
        level[op.id] = least = levels.least(op)
        if height > least:
            assert highest is not None
            if op.name == "read":
                return Conflict([op.id, highest.id])
            level[op.id], cause[op.id] = height, highest
    missing = unsupported(kept, levels, level, cause)
    placed: List[Tuple[int, int, Op]] = [(level[op.id], op.invoked, op) for op in kept]
    return missing if missing is not None else Order(by_moments(placed))


def unsupported(kept: Sequence[Op], levels: Levels, level: Dict[int, int], cause: Dict[int, Op]) -> Optional[Conflict]:
    """Finds a member of an answer that no add can have added by then."""
    adds: Dict[int, List[Op]] = {}
    for op in kept:
        if op.name == "add":
            adds.setdefault(cast(int, op.part), []).append(op)
    for value, number in levels.of_value.items():
        of_value = adds.get(value, [])
        if all(level[op.id] > 2 * number for op in of_value):
            blamed = [levels.read_of[levels.answers[number]], *of_value, *(cause[op.id] for op in of_value if op.id in cause)]
            return Conflict(sorted({op.id for op in blamed}))
    return None
