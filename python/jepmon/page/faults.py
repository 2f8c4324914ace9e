"""Faults as bands: converts the times of faults into places among the events of a key."""
from __future__ import annotations

import bisect
import itertools
from typing import Callable, Dict, List, NamedTuple, Sequence, Tuple

from ..history import Event
from .given import AnyFault, Fault
from .labels import printable

ROWS = 8  # the rows of texts above the bars
NO_ROW = -1


class Band(NamedTuple):
    """A fault among the events of a view: from `begin` to `end` in the units of the view. Its text is in this row of a strip."""

    text: str
    begin: int
    end: int
    row: int


def spans(faults: Sequence[AnyFault], events: Sequence[Event]) -> List[Tuple[str, int, int]]:
    """The text of each fault that was active at some of these events, and the gaps in which it began and ended. Gap i is between event i
    and event i + 1. Gap -1 is before the first event, and the last gap is after the last event. Faults by time are left out if an event has
    no :time. So are faults that were over before the first event or began after the last one. Faults with the same text that meet are one
    fault: a nemesis may begin a fault that is already active, and end only one."""
    indices = [event.index for event in events]
    times = [event.fields["time"] for event in events if isinstance(event.fields.get("time"), int)]
    times = list(itertools.accumulate(times, max))  # times never go back here, although clocks may be set back
    found: List[Tuple[str, int, int]] = []
    for fault in sorted(faults, key=lambda each: each.begin):
        of_events = times if isinstance(fault, Fault) and fault.by == "time" else indices
        if len(of_events) < len(events) or not events:
            continue
        last = len(events) - 1
        begin = bisect.bisect_left(of_events, fault.begin) - 1
        end = last if fault.end is None else bisect.bisect_left(of_events, fault.end) - 1
        if begin < last and (end > -1 or fault.end is None):
            found.append((printable(fault.text), begin, end))
    return joined(found)


def joined(found: Sequence[Tuple[str, int, int]]) -> List[Tuple[str, int, int]]:
    """The spans, ordered by their beginnings. Overlapping spans with the same text become one. Moments stay as they are."""
    made: List[Tuple[str, int, int]] = []
    last: Dict[str, int] = {}  # for each text: the place of its last span in `made`
    for text, begin, end in found:
        place = last.get(text)
        if place is not None and begin < made[place][2] and begin < end:
            made[place] = (text, made[place][1], max(made[place][2], end))
            continue
        last[text] = len(made)
        made.append((text, begin, end))
    return made


def rows(bands: Sequence[Tuple[str, int, int]], room: Callable[[str], int]) -> List[Band]:
    """The bands, each with a row, so that no text overlaps another text in its row. A text takes this much room from the beginning of its
    band. If all ROWS are taken, a band has no row (NO_ROW), and is a shade without a text."""
    taken: List[int] = []  # for each row: the place up to which it is taken
    found: List[Band] = []
    for text, begin, end in bands:
        free = next((row for row, until in enumerate(taken) if until <= begin), len(taken))
        if free == ROWS:
            found.append(Band(text, begin, end, NO_ROW))
            continue
        if free == len(taken):
            taken.append(0)
        taken[free] = max(end, begin + room(text))
        found.append(Band(text, begin, end, free))
    return found
