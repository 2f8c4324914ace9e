"""Answers whose meaning may change a verdict: an answer of nil, and an answer that nobody has written."""
from __future__ import annotations

import re
from typing import Iterator, Optional, Sequence

from ..forms.account import ABSENT, Account
from ..history import Event, Operation, operations
from ..history.kinds import REGISTERS
from ..program import KeyLine
from ..shrinking.registers import brought, wanted
from .words import Given

NIL = "--nil-is-absent or --nil-is-unknown"  # the options that settle the meaning of nil


def account_for_nils(count: int, given: Given, account: Account) -> None:
    """Records a guess: the number of nil answers that count as saying nothing, although they may say that a value is lost."""
    if count and not given.nil_is_unknown:
        account.guess(ABSENT, f"nil says nothing of what a register holds, and {count:,} {'read' if count == 1 else 'reads'} answered it after a "
                      "value was there", NIL)


def quoted(text: str) -> str:
    """A text as a word of a command line."""
    return text if re.fullmatch(r"[\w.-]+", text) else "'" + text.replace("'", "'\\''") + "'"


def strange_answer(line: KeyLine, events: Sequence[Event], concurrency: int) -> Optional[int]:
    """The value that the fatal operation found in an illegal register or queue, if no operation of the key can have brought this value
    in."""
    made = operations(events, concurrency)
    fatal = fatal_of(line, made)
    if fatal is None:
        return None
    value = wanted(fatal) if line.model in REGISTERS else taken(fatal)
    return None if value is None or any(value in (brought(each), each.invocation.value) for each in made) else value


def fatal_of(line: KeyLine, made: Sequence[Operation]) -> Optional[Operation]:
    """Returns the operation whose completion makes the key illegal."""
    return next((each for each in made if each.completion is not None and each.completion.index == line.index), None)


def read_without_answer(line: KeyLine, events: Sequence[Event], concurrency: int) -> Optional[Event]:
    """The completion that makes a set illegal, if it is the completion of a read without an answer."""
    fatal = fatal_of(line, operations(events, concurrency)) if line.model == "set" else None
    is_empty = fatal is not None and fatal.completion is not None and fatal.completion.value is None
    return fatal.completion if fatal is not None and is_empty else None


def asked(events: Sequence[Event]) -> Iterator[int]:
    """Returns the values that operations of a key bring in or compare."""
    for event in events:
        if event.kind == "invoke":
            yield from event.value if isinstance(event.value, tuple) else [event.value] if isinstance(event.value, int) else ()


def taken(operation: Operation) -> Optional[int]:
    """The value that a dequeue has answered."""
    value = operation.completion.value if operation.completion is not None and operation.invocation.name == "dequeue" else None
    return value if isinstance(value, int) else None
