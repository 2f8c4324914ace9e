"""The effect of each operation on the six objects: the table of models of docs/FORMATS.md, in Python.

A state is None or an integer (a register), a boolean (a mutex: is it held), a tuple (a queue, its front first; without an order: ascending)
or a frozenset (a set). The proved program has these tables itself. This is a second version of them, for words and pictures, and tests
compare it with the program.
"""
from __future__ import annotations

import bisect
from typing import Callable, Dict, FrozenSet, List, Optional, Tuple, Union

State = Union[None, int, bool, Tuple[int, ...], FrozenSet[int]]
Found = State  # what a read or a dequeue finds; None where nothing is found, or a register holds nothing
Part = Union[None, int, Tuple[int, int], FrozenSet[int]]
Outcome = Tuple[State, Found]
Rule = Callable[..., List[Outcome]]  # of a state and a part

BY_OPERATION = "mutex by operation"  # not of the program: a mutex whose state tells which operation took place last

START: Dict[str, State] = {
    "register": None,
    "cas-register": None,
    "mutex": False,
    BY_OPERATION: None,
    "fifo-queue": (),
    "unordered-queue": (),
    "set": frozenset(),
}


def _write(_state: State, part: int) -> List[Outcome]:
    return [(part, None)]


def _read(state: State, _part: Part) -> List[Outcome]:
    return [(state, state)]


def _cas(state: Optional[int], part: Tuple[int, int]) -> List[Outcome]:
    return [(part[1], None)] if state is not None and state == part[0] else []


def _acquire(state: bool, _part: Part) -> List[Outcome]:
    return [] if state else [(True, None)]


def _release(state: bool, _part: Part) -> List[Outcome]:
    return [(False, None)] if state else []


def _acquire_by(state: Optional[int], part: int) -> List[Outcome]:
    """An acquire whose part is the operation's number n, from 0. The state is n + 1 while it holds the lock, and after a release -(n +
    1)."""
    return [] if state is not None and state > 0 else [(part + 1, None)]


def _release_by(state: Optional[int], part: int) -> List[Outcome]:
    return [(-part - 1, None)] if state is not None and state > 0 else []


def _enqueue_at_the_back(state: Tuple[int, ...], part: int) -> List[Outcome]:
    return [(state + (part,), None)]


def _dequeue_the_front(state: Tuple[int, ...], _part: Part) -> List[Outcome]:
    return [(state[1:], state[0])] if state else []


def _enqueue_in_its_place(state: Tuple[int, ...], part: int) -> List[Outcome]:
    place = bisect.bisect(state, part)
    return [(state[:place] + (part,) + state[place:], None)]


def _dequeue_any(state: Tuple[int, ...], _part: Part) -> List[Outcome]:
    """One outcome for each different value in the queue, by ascending value."""
    return [(state[:place] + state[place + 1:], value) for place, value in enumerate(state)
            if place == 0 or state[place - 1] != value]


def _add(state: FrozenSet[int], part: int) -> List[Outcome]:
    return [(state if part in state else state | {part}, None)]


RULES: Dict[Tuple[str, str], Rule] = {
    ("register", "write"): _write,
    ("register", "read"): _read,
    ("cas-register", "write"): _write,
    ("cas-register", "read"): _read,
    ("cas-register", "cas"): _cas,
    ("mutex", "acquire"): _acquire,
    ("mutex", "release"): _release,
    (BY_OPERATION, "acquire"): _acquire_by,
    (BY_OPERATION, "release"): _release_by,
    ("fifo-queue", "enqueue"): _enqueue_at_the_back,
    ("fifo-queue", "dequeue"): _dequeue_the_front,
    ("unordered-queue", "enqueue"): _enqueue_in_its_place,
    ("unordered-queue", "dequeue"): _dequeue_any,
    ("set", "add"): _add,
    ("set", "read"): _read,
}


def nowhere(_state: State, _part: Part) -> List[Outcome]:
    """The rule of an operation that the object does not have: it never takes place."""
    return []


def rule(model: str, name: str) -> Rule:
    """The outcomes of the operation of this name: each is the state after it and its answer. If there is none, it can't take place."""
    return RULES.get((model, name), nowhere)
