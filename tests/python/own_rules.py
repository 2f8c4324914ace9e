"""The rules of an object and what they mean: a second reading of `crates/rules/specs/Meaning.antt`, plain and slow. A history is judged by
them by a search through all orders of its operations. The tests compare the examples of `examples/objects`, and the program, with this."""
from __future__ import annotations

from typing import Callable, Dict, FrozenSet, List, NamedTuple, Optional, Sequence, Set, Tuple, Union

Value = Optional[int]  # nil, or an integer of 64 bits; 1 says true, and 0 false
State = Tuple[Value, ...]
LEAST, GREATEST = -2**63, 2**63 - 1


class Missing(Exception):
    """A value that there is not."""


class Term(NamedTuple):
    """A term, which is computed: a constant, the variable or the given integer of a place, or a word on other terms."""

    word: str
    value: Value = None
    terms: Tuple["Term", ...] = ()


class Case(NamedTuple):
    when: Term
    sets: Tuple[Tuple[int, Term], ...]
    answer: Optional[Term]
    or_nil: bool


class Operation(NamedTuple):
    given: int  # how many integers
    cases: Tuple[Case, ...]


class Rules(NamedTuple):
    start: State
    limits: Tuple[Optional[Tuple[int, int]], ...]
    operations: Dict[str, Operation]
    askers: FrozenSet[str]  # the names to which the client is given, before what the part gives


class Found(NamedTuple):
    """The answers that an operation finds, or any."""

    answers: Optional[FrozenSet[Value]]

    def fits(self, answer: Value) -> bool:
        return self.answers is None or answer in self.answers


def integer(value: Value) -> int:
    if value is None:
        raise Missing
    return value


def truth(value: Value) -> bool:
    if value not in (0, 1):
        raise Missing
    return value == 1


def remainder(a: int, b: int) -> int:
    if b <= 0:
        raise Missing
    return a % b


ON_INTEGERS: Dict[str, Callable[[int, int], int]] = {
    "plus": lambda a, b: a + b, "minus": lambda a, b: a - b, "mod": remainder, "min": min, "max": max, "lt": lambda a, b: a < b,
    "le": lambda a, b: a <= b, "gt": lambda a, b: a > b, "ge": lambda a, b: a >= b}


def value_of(term: Term, state: State, given: Sequence[int]) -> Value:
    word, terms = term.word, term.terms
    if word == "constant":
        return term.value
    if word in ("variable", "given"):
        there: Sequence[Value] = state if word == "variable" else given
        if not 0 <= integer(term.value) < len(there):
            raise Missing
        return there[integer(term.value)]
    if word == "if":
        return value_of(terms[1 if truth(value_of(terms[0], state, given)) else 2], state, given)
    a, b = (value_of(part, state, given) for part in terms)
    if word in ("eq", "ne"):
        return int((a == b) == (word == "eq"))
    result = int(ON_INTEGERS[word](integer(a), integer(b)))
    if not LEAST <= result <= GREATEST:
        raise Missing
    return result


def outcome_of_case(rules: Rules, case: Case, reads: bool, given: Sequence[int], state: State) -> Optional[Tuple[State, Found]]:
    """The state after it and what it finds; None if the case does not hold."""
    try:
        if not truth(value_of(case.when, state, given)):
            return None
        after = list(state)
        for place, term in () if reads else case.sets:
            value, limits = value_of(term, state, given), rules.limits[place]
            if limits is not None and not limits[0] <= integer(value) <= limits[1]:
                return None
            after[place] = value
        if case.answer is None:
            return tuple(after), Found(None)
        answer = value_of(case.answer, state, given)
        return tuple(after), Found(frozenset({answer, None} if case.or_nil else {answer}))
    except Missing:
        return None


def outcome_of(rules: Rules, name: str, given: Sequence[int], state: State) -> Optional[Tuple[State, Found]]:
    """That of the first case that holds; None if the operation can't take place."""
    operation = rules.operations.get(name)
    if operation is None or operation.given != len(given):
        return None
    for case in operation.cases:
        outcome = outcome_of_case(rules, case, name == "read", given, state)
        if outcome is not None:
            return outcome
    return None


Part = Union[None, int, Tuple[int, int]]


class Event(NamedTuple):
    kind: str  # invoke, ok, fail or info
    process: int
    name: str
    part: Part


class Call(NamedTuple):
    """An operation of a history: at which events it was invoked and returned, and what it answered."""

    name: str
    given: Tuple[int, ...]
    begin: int
    end: Optional[int]
    fate: str  # ok, fail, info, or open
    answer: Part


def given_by(rules: Rules, event: Event) -> Tuple[int, ...]:
    part = () if event.part is None else (event.part,) if isinstance(event.part, int) else event.part
    return (event.process, *part) if event.name in rules.askers else part


def calls_of(rules: Rules, events: Sequence[Event]) -> List[Call]:
    calls: List[Call] = []
    opened: Dict[int, int] = {}
    for index, event in enumerate(events):
        if event.kind == "invoke":
            opened[event.process] = len(calls)
            calls.append(Call(event.name, given_by(rules, event), index, None, "open", None))
        else:
            place = opened.pop(event.process)
            calls[place] = calls[place]._replace(end=index, fate=event.kind, answer=event.part)
    return calls


def is_linearizable(rules: Rules, calls: Sequence[Call]) -> bool:
    """Whether some order of the operations respects precedence and runs: every ok is in it, no fail is, and each other one may be."""
    failed: Set[Tuple[State, FrozenSet[int]]] = set()

    def fits(call: Call, found: Found) -> bool:
        if call.fate != "ok" or found.answers is None:
            return True
        return not isinstance(call.answer, tuple) and found.fits(call.answer)

    def goes_on(state: State, done: FrozenSet[int]) -> bool:
        if all(call.fate != "ok" or place in done for place, call in enumerate(calls)):
            return True
        if (state, done) in failed:
            return False
        failed.add((state, done))
        first = min(call.end for place, call in enumerate(calls) if call.fate == "ok" and place not in done and call.end is not None)
        for place, call in enumerate(calls):
            if place in done or call.fate == "fail" or call.begin > first:
                continue
            outcome = outcome_of(rules, call.name, call.given, state)
            if outcome is not None and fits(call, outcome[1]) and goes_on(outcome[0], done | {place}):
                return True
        return False

    return goes_on(rules.start, frozenset())


def verdict(rules: Rules, key: int, events: Sequence[Event]) -> str:
    """As the program says it of a history of one key, with a budget that nothing reaches."""
    for many in range(1, len(events) + 1):
        if events[many - 1].kind in ("ok", "fail") and not is_linearizable(rules, calls_of(rules, events[:many])):
            return f"illegal key {key} index {many - 1}"
    return "legal"
