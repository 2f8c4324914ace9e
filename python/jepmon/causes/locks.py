"""Causes for locks: who held the lock, or who had released it."""
from __future__ import annotations

from typing import List

from ..history import Operation
from ..objects import BY_OPERATION
from ..objects.configurations import UNBOUNDED, GaveUp, walk
from ..shrinking.units import begin, end
from .case import Case, Found, mentions
from .names import capital, client, last_event, listed, span


def of_mutex(case: Case) -> Found:
    """Explains an acquire while the lock was held, or a release while it was free."""
    last = last_operations(case)
    told = mentions([case.fatal] + last)
    who = capital(client(case.fatal))
    if case.fatal.invocation.name == "acquire":
        holders = listed(sorted({client(operation) for operation in last}))
        which = f"{holders} had acquired and not released" if last else "was held"
        return Found(f"{who} acquired {case.object}, which {which}.", [of_held(case, last), case.as_a_failure()], told)
    return Found(f"{who} released {case.object}, which nobody held.", [of_free(case, last), case.as_a_failure()], told)


def of_held(case: Case, last: List[Operation]) -> str:
    if not last:
        return ""
    if len(last) > 1:
        by = listed([f"{client(operation)} ({span(operation)})" for operation in last])
        return f"When it returned, at event {case.front[-1].index}, the lock was held in every order of the operations: by {by}."
    acquire, who = last[0], capital(client(last[0]))
    said = f"{who} had acquired it ({span(acquire)})"
    if acquire.outcome != "ok":
        said = f"{who}'s acquire ({span(acquire)}) must have taken place: without it no order of the operations is possible"
    if any(release.outcome != "fail" and end(release) > begin(acquire) for release in case.others("release")):
        return f"{said}, and in no order of the operations had it been released since."
    return f"{said}, and no release had begun since."


def of_free(case: Case, last: List[Operation]) -> str:
    if not case.others("acquire", lambda operation: operation.outcome != "fail"):
        return f"Nobody had acquired it before{of_failed(case)}."
    if not last:
        return ""
    by = listed([f"{client(operation)} ({span(operation)})" for operation in last])
    return f"It had been released last by {by}, and nobody can have acquired it since."


def of_failed(case: Case) -> str:
    """Mentions the acquires that were recorded as failed: one of them may have taken place."""
    failed = case.others("acquire", lambda operation: operation.outcome == "fail")
    if not failed:
        return ""
    latest = f"{client(failed[-1])}'s acquire"
    told = latest if len(failed) == 1 else f"{len(failed)} acquires, the last of them {latest}"
    return f": {told} had failed (event {last_event(failed[-1])})"


def last_operations(case: Case) -> List[Operation]:
    """The operations such that in each possible order before the fatal event one of them took place last. If the fatal operation is an
    acquire these are acquires, and if it is a release they are releases. Empty if no operation has taken place, or if the walk cannot find
    them."""
    events = [event._replace(value=event.index) for event in case.front[:-1]]
    walked = walk(events, BY_OPERATION, UNBOUNDED, case.effort.work)
    try:
        ids = {abs(left.state) - 1 for left in walked.ends() if isinstance(left.state, int)}
    except GaveUp:
        case.effort.leave_out("which operations took place last")
        return []
    return [operation for operation in case.operations if operation.invocation.index in ids]
