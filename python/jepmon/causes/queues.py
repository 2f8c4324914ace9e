"""Causes for queues: who had enqueued a value, who had taken it already, and which values were before it."""
from __future__ import annotations

from typing import List, Optional

from ..history import Operation
from ..shrinking.units import precedes
from .case import Case, Found, mentions
from .names import capital, client, last_event, listed, ordinal_times, span

FEW = 3  # operations that are listed


def of_queue(case: Case) -> Found:
    """Explains a dequeue that answered an impossible value."""
    value = case.answer
    enqueues = case.others("enqueue", lambda operation: bool(operation.invocation.value == value))
    real = [enqueue for enqueue in enqueues if enqueue.outcome != "fail"]
    taken = case.others("dequeue", lambda operation: operation.outcome == "ok" and bool(answer_of(operation) == value))
    if not enqueues:
        return never_sent(case)
    if not real:
        return failed(case, enqueues)
    if len(real) <= len(taken):
        return taken_already(case, real, taken)
    return out_of_order(case, real)


def answer_of(operation: Operation) -> Optional[object]:
    return operation.completion.value if operation.completion is not None else None


def took(case: Case) -> str:
    return f"{capital(client(case.fatal))} took {case.names.value(case.answer)} from {case.object}"


def never_sent(case: Case) -> Found:
    later = next((event for event in case.later
                  if event.kind == "invoke" and event.name == "enqueue" and event.value == case.answer), None)
    after = f": the first enqueue of it begins at event {later.index}." if later is not None else "."
    return Found(f"{took(case)}, but nobody had put it in{after}", other_answers(case), mentions([case.fatal]))


def failed(case: Case, enqueues: List[Operation]) -> Found:
    headline = f"{took(case)}, but {'the only enqueue of it' if len(enqueues) == 1 else 'each enqueue of it'} had failed."
    of_whom = listed([f"{client(enqueue)}'s (event {last_event(enqueue)})" for enqueue in enqueues], "and", FEW)
    said = f"{capital(of_whom)} did not take place, since it was recorded as failed." if len(enqueues) == 1 else (
        f"{capital(of_whom)} did not take place, since they were recorded as failed.")
    return Found(headline, [said] + other_answers(case), mentions([case.fatal] + enqueues))


def taken_already(case: Case, real: List[Operation], taken: List[Operation]) -> Found:
    who = listed(sorted({client(operation) for operation in taken}), "and")
    sent = listed([f"{client(operation)} ({span(operation)})" for operation in real], "and", FEW)
    gone = listed([f"{client(operation)} ({span(operation)})" for operation in taken], "and", FEW)
    sentence = (f"{case.names.value(case.answer)} was put in {ordinal_times(len(real))}, by {sent}, and had been taken "
                f"{ordinal_times(len(taken))} before, by {gone}.")
    return Found(f"{took(case)}, which {who} had taken already.", [sentence] + other_answers(case),
                 mentions([case.fatal] + real[-2:] + taken[-2:]))


def out_of_order(case: Case, real: List[Operation]) -> Found:
    """Explains a queue that may have held the value, but not as its first value."""
    shown, value = case.names.value(case.answer), case.answer
    first = passed_over(case, real)
    if first is not None:
        before = case.names.value(first.invocation.value)
        sentence = (f"{capital(client(first))} had put in {before} ({span(first)}) before {client(real[0])} began to put in "
                    f"{shown} (event {real[0].invocation.index}), and no dequeue had answered {before}.")
        return Found(f"{took(case)} before {before}, which had been put in earlier.", [sentence, *other_answers(case)],
                     mentions([case.fatal, first] + real[:2]))
    inside = any(value in state for state in case.held() or [])
    headline = f"{took(case)}, which can't have been {'in front' if inside else 'in it any more'}."
    last = case.last_possible(lambda state: state[:1] == (value,) if isinstance(state, tuple) else bool(state == value))
    if last.event is None:
        return Found(headline, other_answers(case), mentions([case.fatal] + real[-2:]))
    by = case.operation_of(last.event)
    sentence = f"{shown} can last have been in front just before {case.ended_by(last.event, case.names.owned(by))}."
    return Found(headline, [*other_answers(case), sentence], mentions([case.fatal, by] + real[-2:]))


def passed_over(case: Case, real: List[Operation]) -> Optional[Operation]:
    """An enqueue whose value must be ahead of the dequeued value. This enqueue had returned before each enqueue of the dequeued value
    began, and no dequeue has answered its value. None if a dequeue without an answer may have taken its value."""
    dequeues, fronts = case.others("dequeue", lambda operation: operation.outcome != "fail"), case.findings()
    if any(dequeue.outcome != "ok" for dequeue in dequeues):
        return None
    wanted = set(fronts) - {answer_of(dequeue) for dequeue in dequeues}
    return next((enqueue for enqueue in case.others("enqueue", lambda operation: operation.invocation.value in wanted)
                 if all(precedes(enqueue, later) for later in real)), None)


def other_answers(case: Case) -> List[str]:
    """Says which values the dequeue can have found, and how the program replies to these answers."""
    found = case.findings()
    if not found:
        return [f"{capital(case.while_open)}, there was nothing that it can have found.", case.as_a_failure()]
    return [case.with_asked(f"{capital(case.while_open)}, it can have found {case.names.any_of(found)}", found)]
