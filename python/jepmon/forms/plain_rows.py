"""Rows that are plainly events: each meaning has one field, with a value of a usual type. One plan reads all rows with the same names.
Plans are for speed: meaning.py reads all other rows, and would read these rows with the same result."""
from __future__ import annotations

import operator
from typing import Any, Callable, Dict, List, NamedTuple, Optional, Tuple

from ..history.kinds import EVENT_TYPES, OPERATIONS
from .meaning import MISSING, Reader, Told
from .rows import Row
from .shapes import Fields, Shape
from .written import TEXT

NEEDED = ("client", "type", "f")
MAY_BE = ("key", "value", "time")
VALUES = range(1 - 10**17, 10**18)  # integers that certainly have 64 bits; the least and the greatest values of jepmon are left out
Flat = Any  # an operand as in the rows of collect.py: an atom, or the two atoms of a cas


class Plan(NamedTuple):
    """The plan for reading rows with the same names."""

    shape: Shape
    pick: Callable[[Fields], Tuple[Any, ...]]  # the client, the type, the operation, the key, the value, the time; the client if one is missing
    has_key: bool
    has_value: bool
    has_time: bool
    factor: int  # the nanoseconds in one unit of time
    numbered: Optional[str]  # the name of the field with the index
    others: List[str]  # fields that mean nothing, if they hold no object


class Plans:
    """The plans of the rows so far."""

    def __init__(self, reader: Reader) -> None:
        self.by_names: Dict[Tuple[str, ...], Optional[Plan]] = {}
        self.words: Dict[Tuple[str, str], Tuple[str, str]] = {}  # the type and the operation, by their words in a row
        self._reader = reader

    def learn(self, row: Row) -> None:
        """Learns how to read rows like this one, which the reader has read."""
        names = tuple(row.fields)
        plan = self.by_names.get(names)
        if plan is None:
            if names in self.by_names:
                return
            shape = self._reader.shapes.of_names(names)
            plan, may_be_later = self._plan(shape)
            if plan is not None or not may_be_later:
                self.by_names[names] = plan
        if plan is not None:
            self._learn_words(row, plan)

    def told(self, row: Row) -> Told:
        """Reads a row by its plan again."""
        plan = self.by_names[tuple(row.fields)]
        assert plan is not None
        client, word, said, key, value, time = plan.pick(row.fields)
        kind, name = self.words[word, said]
        return Told(row.line, kind, client, name, key if plan.has_key else MISSING, value if plan.has_value else MISSING, MISSING, None, None, None,
                    time * plan.factor if plan.has_time else None, None, MISSING, row.fields)

    def _plan(self, shape: Shape) -> Tuple[Optional[Plan], bool]:
        """The plan for rows of a shape, if there is one, and whether there may be one later, when the unit of times is known."""
        uses = shape.uses
        if shape.key_parts and shape.key_parts != [used.name for used in uses.get("key", ())][:1]:
            return None, False
        if not set(NEEDED) <= set(uses) <= {*NEEDED, *MAY_BE, "index"} or any(len(used) > 1 for used in uses.values()):
            return None, False
        names = [uses[meaning][0].name if meaning in uses else uses["client"][0].name for meaning in (*NEEDED, *MAY_BE)]
        factor = self._reader.clock.factor(uses["time"][0].slot.unit) if "time" in uses else 1
        if factor is None:
            return None, True
        index = uses["index"][0].name if "index" in uses else None
        others = [name for name in shape.objects if name not in names and name != index]
        return Plan(shape, operator.itemgetter(*names), "key" in uses, "value" in uses, "time" in uses, factor, index, others), False

    def _learn_words(self, row: Row, plan: Plan) -> None:
        _, word, said, *_ = plan.pick(row.fields)
        if type(word) is str and type(said) is str and (word, said) not in self.words:
            kind, name = self._reader.kind(word), self._reader.operation(row.line, said)
            if kind in EVENT_TYPES and name in OPERATIONS:
                self.words[word, said] = kind, name


def plain_key(key: Any) -> Optional[str]:
    """The key as an atom of EDN. None if it is neither a text nor an integer."""
    return TEXT(key) if type(key) is str else str(key) if type(key) is int else None


def plain_part(name: str, value: Any) -> Flat:
    """Returns the operand for a value that is an integer, a text, or the two integers of a cas. None for any other value."""
    if value is None:
        return "nil"
    if type(value) is int:
        return str(value) if value in VALUES else None
    if type(value) is str and value:
        return TEXT(value)
    if type(value) is list and name == "cas" and len(value) == 2 and all(type(one) is int and one in VALUES for one in value):
        return "[", (str(value[0]), str(value[1]))
    return None
