"""Refuses a verdict that depends on a guess: the input, read in another way, has another verdict. The refusal names the options that settle
the guess."""
from __future__ import annotations

from typing import Callable, Dict, Iterator, List, Mapping, NamedTuple, Sequence

from ..forms import Refused
from ..forms.account import ABSENT, MODEL, TYPE, Guess
from ..forms.door import Translation
from ..forms.mapping import LINES, TIMES
from ..forms.mapping_words import KINDS
from ..forms.order import APART, BY_TIMES, EITHER
from ..forms.outcomes import BY_MAPPING
from ..forms.recorded import Recorded
from ..from_jepsen.meant import NUMBERS, text_of
from ..history import Event
from ..history.kinds import REGISTERS
from ..program import KeyLine
from ..program.report import DEAD
from ..tools.errors import ProgramError
from . import doubts
from .models import ALIKE, Choice
from .words import Given

VERDICTS = ("legal", "illegal")
OF_EMPTY_QUEUES = ("", "0", "-1", "None", "null", "NULL", "false", "False", "empty")  # answers that may mean that the queue was empty
MOST_KEYS = 64  # illegal keys that are searched for an answer that nobody has written


class Way(NamedTuple):
    """Another way to read the input."""

    change: Callable[[Given], Given]
    assumed: str  # the assumption by which the input was read
    otherwise: str  # the other assumption
    option: str  # the option that settles it


class Judged(NamedTuple):
    """The judged history, and the result."""

    found: Recorded
    choice: Choice
    word: str
    keys: Sequence[KeyLine]
    concurrency: int
    events_of: Callable[[List[int]], Mapping[int, Sequence[Event]]]


def test(given: Given, judged: Judged, judge: Callable[[Given], str]) -> None:
    """Refuses a verdict if another reading of the input has another verdict. `judge` gives the verdict of such a reading."""
    if judged.word not in VERDICTS:
        return
    if not judged.found.is_own:
        _test_sets(judged)
    ways = list(_ways(given, judged))
    for tried in [[way] for way in ways] + ([ways] if len(ways) > 1 else []):
        _test_one(given, judged.word, tried, judge)
    if judged.word == "illegal" and any(guess.assumed == APART for guess in judged.found.account.guesses):
        raise Refused("the history is illegal, and by their times some clients had long ended when others began: say --skew 0ms if their clocks "
                      "agree, or by how much they may be wrong, for example --skew 5s")


def _test_sets(judged: Judged) -> None:
    """Refuses a set that is illegal by a read without an answer: it may have read anything."""
    dead = {line.key: line for line in judged.keys if line.status in DEAD and line.model == "set"}
    for key, events in judged.events_of(list(dead)[:MOST_KEYS]).items() if dead else ():
        empty = doubts.read_without_answer(dead[key], events, judged.concurrency)
        if empty is not None:
            raise Refused(f"line {empty.line}: this read of the set {judged.found.key_names.get(key, str(key))} is ok, and has no answer: let it say "
                          "what it found, or that it failed")


def _test_one(given: Given, word: str, ways: List[Way], judge: Callable[[Given], str]) -> None:
    changed = given
    for way in ways:
        changed = way.change(changed)
    try:
        other = judge(changed)
    except (Refused, ProgramError):
        return
    if other in (*VERDICTS, "unknown") and other != word:
        raise Refused(f"the verdict rests on a guess: the history is {word} if {' and '.join(way.assumed for way in ways)}, and {other} if "
                      f"{' and '.join(way.otherwise for way in ways)}; say {', and '.join(way.option for way in ways)}")


def _ways(given: Given, judged: Judged) -> Iterator[Way]:
    """The other ways to read the input."""
    for guess in judged.found.account.guesses:
        if guess.of == ABSENT and judged.word == "legal":
            yield Way(lambda given: given._replace(nil_is_absent=True), "nil says nothing of what a register holds",
                      "it is what a missing key answers", guess.option)
        if judged.found.is_own:
            continue
        yield from _of_both(guess, given)
        if judged.word == "illegal":
            yield from _of_order(guess, judged)
    if judged.word == "illegal" and not judged.found.is_own:
        yield from _of_answers(given, judged)


def _of_both(guess: Guess, given: Given) -> Iterator[Way]:
    """The readings by which an illegal history may be legal, and a legal history illegal."""
    if guess.of == TYPE:
        yield Way(lambda given: given._replace(values=NUMBERS), guess.assumed, "they are one", "--values exact or --values number")
    if guess.option == BY_MAPPING:
        yield Way(_refusals_of_http, guess.assumed, "4xx are failures", f"{BY_MAPPING}, as {{\"outcomes\": {{\"409\": \"fail\"}}}}")
    word, _, said = guess.option.partition(" ")
    if word == "--outcome":
        what, _, kind = said.partition("=")
        for other in KINDS:
            if other != kind:
                yield Way(_with_outcome(what, other), guess.assumed, f"taken as :{other}", f"{guess.option} or --outcome {what}={other}")


def _refusals_of_http(given: Given) -> Given:
    """Returns the reading in which HTTP statuses of refused requests are failures."""
    failures = {str(status): "fail" for status in range(400, 500)}
    return given._replace(mapping=given.mapping._replace(outcomes={**failures, **given.mapping.outcomes}))


def _with_outcome(what: str, kind: str) -> Callable[[Given], Given]:
    return lambda given: given._replace(mapping=given.mapping._replace(contradictions={**given.mapping.contradictions, what: kind}))


def _of_order(guess: Guess, judged: Judged) -> Iterator[Way]:
    """The readings that assume less about the order of events, or of messages."""
    if guess.option == EITHER:
        yield Way(_ordered(TIMES), "events of several clients with one time took place in the order of their lines", "they were open at once", EITHER)
    elif guess.option == BY_TIMES and judged.found.translation is not None and are_mixed(judged.found.translation):
        yield Way(_ordered(LINES), "events took place in the order of their times", "they took place in that of their lines",
                  f"{BY_TIMES} or --order lines")
    elif guess.of == MODEL and judged.choice.common in ALIKE:
        model, other = judged.choice.common, ALIKE[judged.choice.common]
        yield Way(lambda given: given._replace(model=other), f"its keys are of the model {model}", f"they are of the model {other}",
                  f"--model {model} or --model {other}")


def _ordered(order: str) -> Callable[[Given], Given]:
    return lambda given: given._replace(mapping=given.mapping._replace(order=order))


def are_mixed(made: Translation) -> bool:
    """Whether the calls of clients go back in time from line to line more often than in concatenated files of these clients."""
    begun = [(line, rank, process) for rank, (kind, process, line) in enumerate(made.moments()) if kind == ":invoke"]
    ranks = [rank for _, rank, _ in sorted(begun)]
    return sum(after < before for before, after in zip(ranks, ranks[1:])) >= len({process for _, _, process in begun})


def _of_answers(given: Given, judged: Judged) -> Iterator[Way]:
    """The reading in which answers that nobody has written are those of missing keys, or the first values of keys."""
    if given.initial is not None or given.said.missing_is_judged:
        return
    dead = {line.key: line for line in judged.keys if line.status in DEAD}
    found: Dict[str, None] = {}
    for key, events in judged.events_of(list(dead)[:MOST_KEYS]).items():
        value = doubts.strange_answer(dead[key], events, judged.concurrency)
        if value is None:
            continue
        names = {each: text_of(judged.found.value_names.get(each, str(each))) for each in {value, *doubts.asked(events)}}
        is_one = list(names.values()).count(names[value]) == 1  # whether no written value looks like it
        if is_one and (dead[key].model in REGISTERS or names[value] in OF_EMPTY_QUEUES):
            found[names[value]] = None
    if found:
        texts = tuple(found)
        words = " ".join(map(doubts.quoted, texts))
        yield Way(lambda given: given._replace(absent=texts), f"no key that answered {words} held it", "that is the answer for a missing key",
                  f"--absent {words}, --initial {words} if a key held it before the test, or --nil-is-absent if it is neither")
