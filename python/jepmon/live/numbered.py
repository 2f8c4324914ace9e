"""Numbers for values that are not integers: the results of Monitor.number. Equal things have the same number. Things that are equal in
Python, but not in a store, have different numbers: True, 1 and 1.0, also within tuples and frozen sets."""
from __future__ import annotations

import numbers
import threading
from typing import Dict, Hashable


class Number(int):
    """An integer that stands for something else."""


class Numbers:
    """Any number of threads may use it."""

    def __init__(self, names: Dict[int, object]) -> None:
        self._names = names  # the thing of each number, for texts
        self._numbers: Dict[Hashable, Number] = {}
        self._sorts: Dict[int, bool] = {}  # for each key, whether its written values are numbers of other things
        self._lock = threading.Lock()

    def number(self, thing: Hashable) -> Number:
        known = apart(thing)
        with self._lock:
            found = self._numbers.get(known)
            if found is None:
                found = self._numbers[known] = Number(len(self._numbers))
                self._names[found] = thing
            return found

    def test(self, key: int, value: int) -> None:
        """Tests that a written value is of the same sort as the values before it, since the integer 0 and the number of "a" may be the
        same."""
        is_number = isinstance(value, Number)
        if self._sorts.setdefault(key, is_number) != is_number:
            one, others = ("by Monitor.number", "not") if is_number else ("not by Monitor.number", "are")
            raise ValueError(f"{value} is {one}, and the values of key {key} before it {others}, so that two may be equal: number each value "
                             "of a key, or none")


def apart(thing: Hashable) -> Hashable:
    """Returns the form of the thing in which it is looked up."""
    if isinstance(thing, bool):
        return bool, thing
    if isinstance(thing, numbers.Number):
        if thing != thing:
            raise ValueError(f"{thing!r} is not equal to itself, so no answer could be equal to it: number its text, as Monitor.number('nan')")
        return int if isinstance(thing, numbers.Integral) else float if isinstance(thing, float) else type(thing), thing
    if isinstance(thing, tuple):
        return tuple, tuple(map(apart, thing))
    if isinstance(thing, frozenset):
        return frozenset, frozenset(map(apart, thing))
    return thing
