"""Values of operations that were recorded as failed, but that a client has read: dirty reads, or errors after which an operation may take
place."""
from __future__ import annotations

from typing import Any, NamedTuple, Optional, Sequence

from ..history import Event
from ..history.fault_notes import Fault
from ..history.kinds import ABSENT
from .losses import Acknowledged, brought_by


class Failure(NamedTuple):
    """An operation that failed, and whose value the illegal event shows or forces."""

    what: str  # the operation in words, such as "write of 11"
    value: int
    before: Acknowledged  # the changes that were acknowledged before it began


def failure_of(fatal: Event, events: Sequence[Event], faults: Sequence[Fault]) -> Optional[Failure]:
    """The failed operation of an illegal event: the event's own operation, or the operation that brought the value which the event read."""
    value = brought_by(fatal) if fatal.kind == "fail" else fatal.value if fatal.name == "read" else None
    failed = next((event for event in events if event.kind == "fail" and event.index <= fatal.index and value is not None
                   and brought_by(event) == value), None)
    if failed is None or not isinstance(value, int):
        return None
    begun = max(event.index for event in events if event.process == failed.process and event.index < failed.index)
    return Failure(f"{failed.name} of {value}", value, Acknowledged.of(events, begun, faults))


def verdict_on_failure(failure: Failure, held: Any) -> str:
    """The sentence that says whether the operation took place, by the value `held` of the nodes after all repairs (None if there is none,
    or a set)."""
    is_set = isinstance(held, frozenset)
    if failure.value in held if is_set else held == failure.value:
        return (f"The {failure.what} was recorded as failed, and its value stays. So it took place: its error does not belong in `certain`, or "
                "the server's answer was wrong.")
    if is_set or held in (None, ABSENT) or any(one.value == held for one in failure.before.values):
        return f"The read of {failure.value} was DIRTY: the {failure.what} failed, and its value is gone."
    return f"The read of {failure.value} was DIRTY, or the {failure.what} took place: a later value hides which of the two it was."
