"""The keys that are not legal, and the cause of each key within the limit of work."""
from __future__ import annotations

from typing import Callable, Dict, Iterable, Iterator, List, Mapping, NamedTuple, Optional, Sequence

from ..causes.effort import Effort
from ..forms.recorded import Recorded
from ..history import Event
from ..objects.configurations import WORK
from ..program import Options, Report
from ..program.report import DEAD, GOOD, KeyLine, Verdict, report_on
from ..wide import Decided
from .causes import Shown, explained
from .judging import Task

EventsOf = Callable[[List[int]], Mapping[int, List[Event]]]
IN_PART = ("full", "wide")  # statuses of keys that are judged only up to some event, since one check can't judge more
FEW_EVENTS = 200_000  # the events of all keys, without the first one, that are explained
OTHERS, SHARE, LEAST = 10_000_000.0, 500_000.0, 20_000.0  # the effort for all these keys, the most for one key, and the least that is enough for one
OTHERS_WORK = WORK // 20
SHOWN = 20  # keys that are shown on a terminal


class Found(NamedTuple):
    """The facts about keys in the lines of a report."""

    bad: List[KeyLine]  # in this order: the key that the verdict names, the other illegal keys, the other bad keys
    counts: Dict[str, int]  # "legal", "illegal" and "unknown"
    models: Dict[str, int]  # the number of keys of each model


def word_of(line: KeyLine) -> str:
    return "legal" if line.status in GOOD else "illegal" if line.status in DEAD else "unknown"


def found(lines: Iterable[KeyLine]) -> Found:
    bad: List[KeyLine] = []
    counts, models = {"legal": 0, "illegal": 0, "unknown": 0}, {}  # type: Dict[str, int], Dict[str, int]
    for line in lines:
        counts[word_of(line)] += 1
        models[line.model] = models.get(line.model, 0) + 1
        if line.status not in GOOD:
            bad.append(line)
    return Found(sorted(bad, key=lambda line: (line.status not in DEAD, line.index or 0, line.key)), counts, models)


def of_key(report: Report, line: KeyLine) -> Report:
    """Returns the part of the report about one key."""
    if line.status in GOOD:
        return report
    return report_on([line], Verdict(word_of(line), (line.index or 0, line.key)))


def shown(recorded: Recorded, task: Task, report: Report, lines: Sequence[KeyLine], events_of: EventsOf, with_cause: bool,
          decided: Mapping[int, Decided]) -> List[Shown]:
    """The sentences about each bad key. If the history is legal, the sentences about the first key that was decided afterwards."""
    if not lines and report.word == "legal" and decided:
        number = next(iter(decided))
        lines = [line for line in report.keys if line.key == number] or [line_of(number, decided[number].options)]
    keys = [Shown(line, of_key(report, line), options_of(task, line, decided.get(line.key)), decided=decided.get(line.key)) for line in lines]
    chosen = [key.line.key for key in those_looked_at(keys)]
    events = events_of(chosen) if chosen else {}
    keys = [key._replace(events=events.get(key.line.key, ())) for key in keys]
    return list(with_causes(recorded, keys)) if with_cause and report.word != "legal" else keys


def line_of(key: int, options: Options) -> KeyLine:
    return KeyLine(key, options.model, options.budget, 0, "confirmed", None, options.is_wide())


def options_of(task: Task, line: KeyLine, decided: Optional[Decided]) -> Options:
    return decided.options if decided is not None else task.options.of_line(line)


def those_looked_at(keys: Sequence[Shown]) -> Iterator[Shown]:
    """Returns the first key, and as many other keys as may be in memory at once."""
    events = 0
    for place, key in enumerate(keys):
        if key.line.status in IN_PART:
            continue
        events += key.line.events if place else 0
        if events > FEW_EVENTS:
            return
        yield key


def with_causes(recorded: Recorded, keys: Sequence[Shown]) -> Iterator[Shown]:
    left = OTHERS
    for place, key in enumerate(keys):
        share = min(SHARE, left)
        if not key.events or place and share < LEAST:
            yield key
            continue
        effort = Effort(share, OTHERS_WORK) if place else Effort()
        yield explained(recorded, key, effort)
        left -= max(share - effort.left, LEAST / 10) if place else 0


def named(recorded: Recorded, key: int) -> str:
    """The key as the user knows it."""
    return recorded.key_names.get(key, str(key))


def others_told(recorded: Recorded, keys: Sequence[Shown]) -> Iterator[str]:
    """The bad keys after the first one, each with its cause in a line."""
    others = keys[1:]
    if not others:
        return
    dead = sum(key.line.status in DEAD for key in others)
    counts = [f"{dead} not linearizable"] * (dead > 0) + [f"{len(others) - dead} not judged to the end"] * (dead < len(others))
    yield f"other keys: {', '.join(counts)}"
    for key in others[:SHOWN]:
        line = next((event.line for event in key.events if event.index == key.line.index), 0)
        where = f"event {key.line.index}" + (f", line {line}" if line else "")
        yield f"  key {named(recorded, key.line.key)}, {where}: {said(key)}"
    if len(others) > SHOWN:
        yield f"  and {len(others) - SHOWN} more, which --json and --out name"


def said(key: Shown) -> str:
    """Returns the cause of a key in a sentence."""
    if key.cause is not None:
        return key.cause.headline
    if key.line.status in IN_PART:
        return "judged only up to this event"
    return "not linearizable from this event on" if key.line.status in DEAD else "over its budget"
