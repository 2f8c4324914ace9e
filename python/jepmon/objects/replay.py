"""Runs one order of operations on an object that is changed in place. The results are those of jepmon.objects, in about the time of the
operations themselves. An outcome of jepmon.objects is a whole new state, which is large for a long queue."""
from __future__ import annotations

import collections
from typing import Callable, Counter, Deque, Dict, Optional, Set, Tuple, cast

from . import START, Found, Part, State, rule

Wanted = Optional[Tuple[Found]]  # the answer that a read or a dequeue has to find; None: any one
Taken = Optional[Tuple[Found]]  # the found value; None if the operation can't take place in this way


class Object:
    """An object at its start."""

    def take(self, name: str, part: Part, wanted: Wanted = None) -> Taken:
        """Carries out the operation if it can take place, and otherwise changes nothing. If several answers are right, it finds the least
        one."""
        raise NotImplementedError

    def state(self) -> State:
        """The state, as jepmon.objects has it."""
        raise NotImplementedError


def fits(found: Found, wanted: Wanted) -> bool:
    return wanted is None or wanted[0] == found


class ByRules(Object):
    """An object with small states, which it takes from jepmon.objects."""

    def __init__(self, model: str) -> None:
        self._model, self._state = model, START[model]

    def take(self, name: str, part: Part, wanted: Wanted = None) -> Taken:
        for state, found in rule(self._model, name)(self._state, part):
            if fits(found, wanted):
                self._state = state
                return (found,)
        return None

    def state(self) -> State:
        return self._state


class FifoQueue(Object):
    def __init__(self) -> None:
        self._values: Deque[int] = collections.deque()

    def take(self, name: str, part: Part, wanted: Wanted = None) -> Taken:
        if name == "enqueue":
            self._values.append(cast(int, part))
            return (None,)
        if name != "dequeue" or not self._values or not fits(self._values[0], wanted):
            return None
        return (self._values.popleft(),)

    def state(self) -> State:
        return tuple(self._values)


class UnorderedQueue(Object):
    def __init__(self) -> None:
        self._held: Counter[int] = collections.Counter()  # each value that is in, and how often

    def take(self, name: str, part: Part, wanted: Wanted = None) -> Taken:
        if name == "enqueue":
            self._held[cast(int, part)] += 1
            return (None,)
        if name != "dequeue" or not self._held:
            return None
        value = cast(int, min(self._held) if wanted is None else wanted[0])
        if value not in self._held:
            return None
        self._held[value] -= 1
        if not self._held[value]:
            del self._held[value]
        return (value,)

    def state(self) -> State:
        return tuple(sorted(self._held.elements()))


class MemberSet(Object):
    def __init__(self) -> None:
        self._members: Set[int] = set()

    def take(self, name: str, part: Part, wanted: Wanted = None) -> Taken:
        if name == "add":
            self._members.add(cast(int, part))
            return (None,)
        if name != "read" or wanted is not None and not self._has_just(wanted[0]):
            return None
        return (frozenset(self._members),) if wanted is None else wanted

    def _has_just(self, answer: Found) -> bool:
        return isinstance(answer, frozenset) and len(answer) == len(self._members) and answer <= self._members

    def state(self) -> State:
        return frozenset(self._members)


OBJECTS: Dict[str, Callable[[], Object]] = {
    "register": lambda: ByRules("register"),
    "cas-register": lambda: ByRules("cas-register"),
    "mutex": lambda: ByRules("mutex"),
    "fifo-queue": FifoQueue,
    "unordered-queue": UnorderedQueue,
    "set": MemberSet,
}
