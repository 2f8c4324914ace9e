"""Causes for sets: the members that a read's answer lacks, and the members that it should not have."""
from __future__ import annotations

from typing import AbstractSet, FrozenSet, List

from ..history import Operation
from ..shrinking.units import precedes
from .case import Case, Found, Mention, mentions
from .names import capital, client, last_event, span


def of_set(case: Case) -> Found:
    """Explains a read with an impossible answer of the set."""
    answer = case.answer
    if not isinstance(answer, frozenset):
        shown = case.names.value(answer)
        counter = "Reads answered by integers are of a register, or of a counter, which jepmon does not judge."
        hint = [] if answer is None else [counter]
        return Found(f"{capital(client(case.fatal))}'s read of {case.object} answered {shown}, which is not an answer of a set.",
                     hint, mentions([case.fatal]))
    found = [finding for finding in case.findings() if isinstance(finding, frozenset)]
    lacking = frozenset.intersection(*found) - answer if found else frozenset()
    strange = answer - frozenset().union(*found)
    sentences: List[str] = []
    told: List[Mention] = mentions([case.fatal])
    for value in sorted(lacking)[:2]:
        sentences.append(of_lacking(case, value, told))
    for value in sorted(strange)[:2]:
        sentences.append(of_strange(case, value, told))
    if not lacking and not strange:
        sentences.append(of_mixture(case, answer, told))
    return Found(headline(case, lacking, strange), sentences + other_answers(case, answer, found), told)


def headline(case: Case, lacking: AbstractSet[int], strange: AbstractSet[int]) -> str:
    said = f"{capital(client(case.fatal))}'s read of {case.object}"
    names = case.names
    if lacking and strange:
        return (f"{said} lacks {names.any_of(sorted(lacking), 'and')}, which had been added before, and has "
                f"{names.any_of(sorted(strange), 'and')}, which nobody can have added.")
    if lacking:
        return f"{said} lacks {names.any_of(sorted(lacking), 'and')}, which had been added before."
    if strange:
        return f"{said} has {names.any_of(sorted(strange), 'and')}, which nobody can have added."
    return f"{said} answered {names.value(case.answer)}, and at no moment can the set have been just that."


def of_lacking(case: Case, value: int, told: List[Mention]) -> str:
    shown = case.names.value(value)
    done = next((add for add in adds_of(case, value) if precedes(add, case.fatal)), None)
    if done is not None:
        told += mentions([done])
        return (f"{shown} was added by {client(done)} ({span(done)}), and the read began after that, at event "
                f"{case.fatal.invocation.index}.")
    last = case.last_possible(lambda state: isinstance(state, frozenset) and value not in state).event
    if last is None:
        return ""
    by = case.operation_of(last)
    told += mentions([by])
    return f"{shown} can last have been missing just before {case.ended_by(last, owned(case, by))}."


def of_strange(case: Case, value: int, told: List[Mention]) -> str:
    shown, adds = case.names.value(value), adds_of(case, value)
    if adds:
        told += mentions(adds[-1:])
        which = "The only add" if len(adds) == 1 else "Each add"
        return f"{which} of {shown} had failed ({', '.join(f'event {last_event(add)}' for add in adds[-3:])})."
    later = next((event for event in case.later if event.kind == "invoke" and event.name == "add" and event.value == value), None)
    if later is not None:
        return f"The first add of {shown} begins at event {later.index}, after the read."
    return f"No add of {shown} had begun by then."


def of_mixture(case: Case, answer: FrozenSet[int], told: List[Mention]) -> str:
    """Explains an answer in which each member may be present and each missing one absent, but not all of this at one moment."""
    last = case.last_possible(lambda state: bool(state == answer)).event
    if last is None:
        return "Each of its members may have been added, and each that it lacks may have been missing, but not all at one moment."
    by = case.operation_of(last)
    told += mentions([by])
    return f"The set can last have been just that before {case.ended_by(last, owned(case, by))}."


def owned(case: Case, operation: Operation) -> str:
    """The operation with its client. A read is shown without its whole answer."""
    if operation.invocation.name == "read":
        return f"{client(operation)}'s read"
    return case.names.owned(operation)


def adds_of(case: Case, value: int) -> List[Operation]:
    return case.others("add", lambda operation: operation.invocation.value == value)


def other_answers(case: Case, answer: FrozenSet[int], found: List[FrozenSet[int]]) -> List[str]:
    """Says how the program replies to the possible answer that differs least from the given answer."""
    nearest = sorted(found, key=lambda finding: (len(finding ^ answer), len(finding), sorted(finding)))
    legal = case.with_answers(nearest[:1])
    return [f"jepmon says that {difference(case, answer, legal[0])} this read would have been legal."] if legal else []


def difference(case: Case, answer: FrozenSet[int], other: FrozenSet[int]) -> str:
    more, less = case.names.any_of(sorted(other - answer), "and"), case.names.any_of(sorted(answer - other), "and")
    if not other:
        return "with the empty set as its answer"
    return " and ".join(([f"with {more} as well"] if more else []) + ([f"without {less}"] if less else []))
