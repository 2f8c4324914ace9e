"""Causes for registers: the value of the register, the writer of the value that was found, and the write that overwrote this value."""
from __future__ import annotations

from typing import List, Optional

from ..history import Event, Operation
from ..shrinking.registers import brought, wanted
from .case import Case, Found, Mention, mentions
from .names import capital, client, last_event, span


def of_register(case: Case) -> Found:
    """Explains a read that answered a value, or a cas that found one, if the register cannot have held this value."""
    value = wanted(case.fatal)
    if value is None:
        return of_strange_answer(case)
    shown = case.names.value(value)
    bringers = [operation for operation in case.operations if brought(operation) == value and operation is not case.fatal]
    last = case.last_possible(lambda state: bool(state == value))
    by = case.operation_of(last.event) if last.event is not None else None
    if by is not None and by in bringers and by.outcome == "fail":
        return of_failed(case, value, [by])
    if bringers and all(bringer.outcome == "fail" for bringer in bringers):
        return of_failed(case, value, bringers)
    sentences, told = [while_open(case, value)], mentions([case.fatal])
    if last.event is not None and by is not None:
        ended = last.event
        sentences.append(f"{shown} was last possible just before {case.ended_by(ended, case.names.owned(by))}.")
        told += [Mention(by.invocation, ""), Mention(ended, f"from here on {shown} is impossible")]
    source = last_source(bringers)
    if source is not None:
        when = "last " if len(bringers) > 1 else ""
        sentences.append(f"{shown} was {when}brought in by {case.names.owned(source)} ({span(source)}).")
        told += mentions([source], {source.invocation.index: f"{shown} comes in"})
    elif bringers and last == (True, None):
        sentences.append(f"{capital(case.names.owned(bringers[-1]))} ({span(bringers[-1])}) can have taken place at no moment.")
    return Found(headline(case, value, bringers, last.event is not None), sentences, told)


def did(case: Case, value: int) -> str:
    if case.fatal.invocation.name == "read":
        return f"{capital(client(case.fatal))} read {case.names.value(value)} from {case.object}"
    return f"{capital(client(case.fatal))}'s {case.names.operation(case.fatal)} took place on {case.object}"


def headline(case: Case, value: int, bringers: List[Operation], was_possible: bool) -> str:
    shown = case.names.value(value)
    if bringers:
        return f"{did(case, value)}, which could not hold {shown} {'any more' if was_possible else 'then'}."
    later = next((event.index for event in case.later if event.kind == "invoke" and value_of(event) == value), None)
    return f"{did(case, value)}, but nobody had written {shown}{f': it is first written at event {later}' if later else ''}."


def value_of(event: Event) -> Optional[int]:
    """The value that an invocation writes to a register."""
    return brought(Operation(event, None, 0))


def of_failed(case: Case, value: int, failed: List[Operation]) -> Found:
    """Explains a value that only failed operations wrote."""
    shown = case.names.value(value)
    if len(failed) == 1:
        head = f"{did(case, value)}, but {case.names.owned(failed[0])} had failed (event {last_event(failed[0])})."
    else:
        head = f"{did(case, value)}, but each write of {shown} had failed."
    said = f"A failed operation did not take place, and {shown} can have come from nothing else then."
    told = mentions([case.fatal] + failed[-2:], {operation.invocation.index: "it did not take place" for operation in failed})
    return Found(head, [while_open(case, value), said], told)


def while_open(case: Case, value: int) -> str:
    """Says which values the register can have held while the operation was open, and how the program replies to them as answers."""
    held = case.held()
    if not held:
        return case.as_a_failure()
    can = ("held nothing, since nothing had been written" if held == [None] else
           f"can have held {case.names.any_of(held)}, never {case.names.value(value)}")
    said = f"{capital(case.while_open)}, {case.object} {can}"
    if case.fatal.invocation.name != "read":
        return f"{said}. {case.as_a_failure()}".strip()
    findings = case.findings()
    return case.with_asked(said, [answer for answer in findings if answer is not None] or findings)


def last_source(bringers: List[Operation]) -> Optional[Operation]:
    """The last operation that may have written the value: a write, or a cas that has returned."""
    likely = [bringer for bringer in bringers
              if bringer.outcome == "ok" or bringer.outcome != "fail" and bringer.invocation.name == "write"]
    return max(likely, key=lambda bringer: bringer.invocation.index) if likely else None


def of_strange_answer(case: Case) -> Found:
    """A read of a register that answered a set."""
    said = f"{capital(client(case.fatal))} read {case.names.value(case.answer)} from {case.object}, which is judged as a register"
    return Found(f"{said}: a set is no answer there.", ["Was --model set meant?"], mentions([case.fatal]))
