"""Finds an illegal part of a key's history, which the program then judges. The searches of this package remove only operations that may be
removed (docs/guide/SHRINKING.md has the rules)."""
from __future__ import annotations

from typing import AbstractSet, FrozenSet, List, Optional, Sequence

from ..causes.effort import Effort
from ..history import Operation
from ..history import kinds
from ..program import Options, check
from ..shrink import Part, Search
from ..shrinking.part import as_asked, events_of, text_of
from .operation import Clock, Order, OutOfTime, cut_before, front
from .solve import solve

BUDGET = kinds.BUDGETS[-1]


class BySearch(Search):
    """The search for the smallest part, by the answers of this package instead of the program's."""

    def __init__(self, options: Options, fatal: int, hints: FrozenSet[int], clock: Clock) -> None:
        super().__init__(options, fatal, hints, None, Effort())
        self.clock = clock

    def is_over(self) -> bool:
        return self.clock.left() <= 0

    def is_illegal(self, part: List[Operation]) -> bool:
        """Returns whether the part is illegal at the fatal event, and not before."""
        self.checks += 1
        try:
            return not self.has_order(part, self.fatal) and self.has_order(part, self.fatal - 1)
        except OutOfTime:
            return False

    def has_order(self, part: List[Operation], end: int) -> bool:
        return isinstance(solve(self.options.model, front(part, end), self.clock), Order)


def part_of(operations: Sequence[Operation], options: Options, fatal: int, hints: Sequence[int], clock: Clock,
            program: Optional[str] = None) -> Optional[Part]:
    """A part of the prefix that ends with the fatal event, which is illegal at this event by the program. None if no such part is found."""
    cut = cut_before(operations, fatal + 1)
    search = BySearch(options, fatal, frozenset(hints), clock)
    few = without_other_reads(cut, options.model, {fatal, *hints})
    left = (search.run(few) if few is not None else None) or search.run(cut)
    if left is None:
        return None
    events = events_of(left.operations)
    asked = as_asked(options)._replace(budget=BUDGET)
    text = text_of(events, options.concurrency)
    report = check(text.encode(), asked, program, timeout=max(1.0, clock.left()))
    if report.word != "illegal" or report.index != len(events) - 1:
        return None
    return Part(events, text, asked, len(cut), len(left.operations), left.values, 1, clock.left() > 0)


def without_other_reads(operations: List[Operation], model: str, kept: AbstractSet[int]) -> Optional[List[Operation]]:
    """For a set, the operations without the reads that have none of these events. None for other objects. Each read may be removed, and a
    search through the members of all reads would take long."""
    if model != "set":
        return None
    return [operation for operation in operations if operation.invocation.name != "read" or operation.invocation.index in kept
            or operation.completion is not None and operation.completion.index in kept]
