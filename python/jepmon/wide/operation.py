"""The operations of a prefix of one key's history, in the form for a search, and the result of a search."""
from __future__ import annotations

import itertools
import time
from typing import Callable, List, NamedTuple, Sequence, Tuple, Union

from ..history import Operation
from ..history.kinds import MODELS, REGISTERS
from ..objects import Part

NEVER = 1 << 62  # the completion of an operation that need not have taken place
BETWEEN = 512  # the number of steps between two looks at the clock


class Op:
    """An operation of a prefix. If it has not returned in the prefix, it may take place at any later moment, or never."""

    __slots__ = ("id", "name", "part", "answer", "is_done", "invoked", "completed")

    def __init__(self, id: int, name: str, part: Part, answer: Part, completed: int) -> None:
        self.id = id  # the index of its invocation in the history
        self.name = name
        self.part = part
        self.answer = answer  # the answer of a read or a dequeue that has returned
        self.is_done = completed < NEVER
        self.invoked = id
        self.completed = completed


class Order(NamedTuple):
    """The result that a prefix is linearizable: operations one after another, by the index of their invocations. Operations that are not in
    it did not take place."""

    ids: List[int]


class Conflict(NamedTuple):
    """The result that a prefix is not linearizable, by the search. You need not trust it: it names the operations to try first in the
    search for a part that the program finds illegal."""

    ids: List[int]


Answer = Union[Order, Conflict]


class OutOfTime(Exception):
    """The time for the search is up."""


class Clock:
    """The time for a search, by the wall clock or by the processor's clock."""

    def __init__(self, seconds: float, now: Callable[[], float] = time.monotonic) -> None:
        self._now = now
        self._until = now() + seconds
        self._steps = 0

    def step(self) -> None:
        """Counts a step of a search. Raises OutOfTime if the time is up."""
        self._steps += 1
        if self._steps % BETWEEN == 0:
            self.look()

    def look(self) -> None:
        if self.left() <= 0:
            raise OutOfTime

    def left(self) -> float:
        return self._until - self._now()


def front(operations: Sequence[Operation], end: int) -> List[Op]:
    """The operations of the prefix that ends with the event of this index, in the order of their invocations. Operations that have failed
    by then are left out, since they did not take place."""
    found: List[Op] = []
    for invocation, completion, _ in operations:
        if invocation.index > end:
            break
        if completion is None or completion.index > end or completion.kind == "info":
            found.append(Op(invocation.index, invocation.name, invocation.value, None, NEVER))
        elif completion.kind == "ok":
            found.append(Op(invocation.index, invocation.name, invocation.value, completion.value, completion.index))
    return found


def cut_before(operations: Sequence[Operation], index: int) -> List[Operation]:
    """Returns the operations of the events before this event."""
    return [operation if operation.completion is None or operation.completion.index < index else operation._replace(completion=None)
            for operation in operations if operation.invocation.index < index]


def most_open(operations: Sequence[Operation]) -> int:
    """The greatest number of operations that are open at once."""
    invoked = [(invocation.index, 1) for invocation, _, _ in operations]
    completed = [(completion.index, -1) for _, completion, _ in operations if completion is not None]
    return max(itertools.accumulate(change for _, change in sorted(invoked + completed)), default=0)


def fits(op: Op, model: str) -> bool:
    """Returns whether an object of this model can have this operation with such an answer at all."""
    if op.name not in MODELS[model]:
        return False
    if op.name != "read" or not op.is_done:
        return True
    return isinstance(op.answer, frozenset) if model == "set" else not isinstance(op.answer, frozenset)


def says_nothing(op: Op, model: str) -> bool:
    """Returns whether the operation fits at each moment and changes nothing: a read of a register with the answer nil."""
    return op.name == "read" and op.is_done and op.answer is None and model in REGISTERS


def with_silent(order: Sequence[Op], silent: Sequence[Op]) -> List[int]:
    """The order, with the operations that fit everywhere added at the moments of their invocations. Each other operation takes place at the
    latest invocation up to its place, which is within its own time if the order respects real time."""
    placed: List[Tuple[int, int, int]] = []
    moment = 0
    for number, op in enumerate(order):
        moment = max(moment, op.invoked)
        placed.append((moment, number, op.id))
    return [id for _, _, id in sorted(placed + [(op.invoked, -1, op.id) for op in silent])]


def by_moments(placed: Sequence[Tuple[int, int, Op]]) -> List[int]:
    """The order of operations by the moments at which they take place, each within its own time. At the same moment the second number
    decides."""
    return [op.id for _, _, op in sorted(placed, key=lambda each: each[:2])]
