"""Queues whose values are equal. The kind wide-fifo-queue judges a queue up to the first ok before which two enqueues of one value have not
failed. From this ok on, the key is over. The plain kind judges such a queue by its ends. So a key that is over by the wide kind is also
judged by the plain kind. Its line in the report comes from the kind that judged it further."""
from __future__ import annotations

from typing import TYPE_CHECKING, Callable, Iterable, List, Mapping, Optional, Sequence

from ..history.kinds import DIFFERING, model_of
from .report import DEAD, KeyLine, Place, Report, report_on, verdict_of

if TYPE_CHECKING:
    from . import Options

NAMED = 6  # keys that a note names
LEFT = ("key {}: two enqueues of one value have not failed, and by its ends the queue is over its budget before: give each message a value of "
        "its own")

def is_left(line: KeyLine) -> bool:
    """Returns whether the key is unknown by the wide kind because of equal values."""
    return line.kind == DIFFERING and line.status == "over"


def in_full(options: Options, asked: Callable[[Options], Report]) -> Report:
    """The report of a check by these options. If equal values make a key unknown, the check is made again by ends."""
    report = asked(options)
    return joined(report, asked(options._replace(by_ends=True))) if any(map(is_left, report.keys)) else report


def joined(report: Report, by_ends: Report) -> Report:
    """The report in which keys that were judged further by ends have the lines of this judgement."""
    if [line.key for line in report.keys] != [line.key for line in by_ends.keys]:
        return report  # the second check gave no verdict, for example if memory ran out
    lines = [further(line, other) if is_left(line) else line for line, other in zip(report.keys, by_ends.keys)]
    verdict = verdict_of(first(lines, DEAD), first(lines, ("over",)), len(lines))
    return report_on(lines, verdict, by_ends.error if by_ends.verdict == verdict.line else report.error)


def further(line: KeyLine, by_ends: KeyLine) -> KeyLine:
    """Returns the one of two lines of a key that judges the key further."""
    return line if by_ends.status == "over" and (by_ends.index or 0) <= (line.index or 0) else by_ends


def keys_by_ends(lines: Iterable[KeyLine], options: Options, program: Optional[str] = None) -> List[int]:
    """The keys of a report by these options that were judged by ends, since their values are equal."""
    return [line.key for line in lines if not line.is_wide and options.kind(program, line.model) == DIFFERING]


def note(keys: Sequence[int], names: Mapping[int, str] = {}) -> str:
    """Reports that these keys, or those of these names, are judged by ends."""
    shown = ", ".join(names.get(key, str(key)) for key in keys[:NAMED]) + (f" and {len(keys) - NAMED} more" if len(keys) > NAMED else "")
    which, are = (f"keys {shown}", "they are") if len(keys) > 1 else (f"key {shown}", "it is")
    return f"{which}: two enqueues of one value have not failed, so {are} judged by ends, as {model_of(DIFFERING)}"


def first(lines: Sequence[KeyLine], statuses: Sequence[str]) -> Optional[Place]:
    """The first event at which a key has one of these statuses."""
    return min(((line.index or 0, line.key) for line in lines if line.status in statuses), default=None)
