"""The files that a live test leaves in its folder: the verdict as soon as there is one, and at the end the cause and the page."""
from __future__ import annotations

import sys
from typing import Counter, Dict, List, Mapping, NamedTuple, Optional, Sequence

from . import aftermath
from .run_folder import CAUSE, COUNTS, NAMES, PAGE, VERDICT, RunFolder
from .verdicts import NotLegal, Unknown


class Conclusion(NamedTuple):
    """The result of a run."""

    failure: Optional[NotLegal]  # None if the verdict is legal
    length: int
    counts: Dict[str, Counter[str]]  # the number of operations by name and outcome
    dropped: Dict[int, Unknown]
    ended_by: Optional[BaseException]  # the exception that ended the test early, if there was one
    model: str  # the model of the key that is not legal
    budget: int
    names: Mapping[int, object]  # the original values of numbers
    by_ends: Sequence[int]  # keys of queues that are judged by their ends, since their values are equal
    kind: str  # the kind by which the key that is not legal was judged


def leave_verdict(folder: RunFolder, conclusion: Conclusion) -> None:
    folder.put(COUNTS, counts_text(conclusion, folder.lost))
    if conclusion.names:
        folder.put(NAMES, "".join(f"{number} is {thing!r}\n" for number, thing in conclusion.names.items()))
    folder.put(VERDICT, (conclusion.failure.reply if conclusion.failure is not None else "legal") + "\n")


def leave_cause(folder: RunFolder, conclusion: Conclusion) -> None:
    """Writes the cause of an illegal or unknown verdict, in words and as a page. Writes nothing if the history does not have the verdict's
    event; then another line says so."""
    failure = conclusion.failure
    if failure is None or failure.key is None or failure.index is None or folder.lost is not None:
        return
    bad = aftermath.Bad(failure.reply, failure.key, failure.index, conclusion.model, conclusion.budget, conclusion.kind)
    told = aftermath.told(folder, bad)
    folder.put(CAUSE, "".join(line + "\n" for line in [*told.cause, *failure.hint.split("\n")] if line))
    if told.page:
        folder.put(PAGE, told.page)


def leave_page(folder: RunFolder) -> None:
    """Writes the page of the whole run, legal or not. For a part (a segment) of a long test, it is the page of the whole test."""
    if not folder.is_part:
        from ..rates.run import leave  # here, since a test without a folder needs no page

        leave(folder.path, folder.lost is not None)


def counts_text(conclusion: Conclusion, lost: Optional[str]) -> str:
    """The number of operations by outcome, and further facts about the run."""
    lines: List[str] = [f"events: {conclusion.length}", *count_lines(conclusion.counts)]
    lines += [f"dropped: {unknown.reply}" for unknown in conclusion.dropped.values()]
    lines += [f"judged by ends, since values are equal: key {key}" for key in conclusion.by_ends]
    if conclusion.ended_by is not None and not isinstance(conclusion.ended_by, NotLegal):
        lines.append(f"the test was ended by {conclusion.ended_by!r}")
    if lost is not None:
        lines.append(lost)
    return "\n".join(lines) + "\n"


def say_if_idle(counts: Dict[str, Counter[str]]) -> None:
    """Says on standard error that no operation was ok: such a run is legal, but says nothing about the store."""
    total = sum(sum(counted.values()) for counted in counts.values())
    if total and not any(counted["ok"] for counted in counts.values()):
        print(f"jepmon: none of {total} operations was ok, so nothing was judged", file=sys.stderr)


def count_lines(counts: Dict[str, Counter[str]]) -> List[str]:
    """The number of operations by outcome, with a line for each name."""
    return [f"{name}: " + ", ".join(f"{counted[outcome]} {outcome}" for outcome in ("ok", "fail", "info"))
            for name, counted in sorted(counts.items())]
