"""A view of a key: some of its operations, laid out in pixels. A page has two: all of them, and the smallest illegal part."""
from __future__ import annotations

import itertools
import unicodedata
from typing import Dict, Iterable, List, NamedTuple, Optional, Sequence, Tuple

from ..history import Event, Operation
from . import faults, layout
from .given import AnyFault, Walked
from .labels import MARKS, Labels

LETTER = 7.3  # the width of a character of a label, in pixels; no usual fixed-width font of that size is wider
SMALL_LETTER = 6.7  # the width of a character of an event's index, or of a number of ends
PADDING = 20  # the space around a label within its bar
MARK = 14  # the space for a mark beside a label
LABEL = 190  # the greatest room for a label
HELD = 60  # the greatest room for the values that the object could hold
BESIDE = 10  # the space between two indices
LEAST_GAP = 34
EDGE = 40  # the space before the first event, and after the last
BAND_LABEL = 170  # the greatest room for a fault's text


class View(NamedTuple):
    """Events by their indices, their positions, the whole width, the lanes, and the bands of faults."""

    columns: List[int]
    places: List[int]
    width: int
    lanes: List[layout.Lane]
    bands: List[faults.Band]


def letters(text: str) -> int:
    """Returns the number of columns of a terminal that the text needs."""
    return len(text) if text.isascii() else sum(of_letter(c) for c in text)


def of_letter(letter: str) -> int:
    if unicodedata.combining(letter):
        return 0
    return 2 if unicodedata.east_asian_width(letter) in "WF" else 1


def view(events: Sequence[Event], operations: Sequence[Operation], fatal: int, given: Sequence[AnyFault], labels: Labels,
         walked: Optional[Walked] = None) -> View:
    """The view of these operations. `events` are the key's own events, and `fatal` is the index of the fatal event, or of the last one if
    no event is fatal. The results of a walk get room too."""
    shown = {event.index for operation in operations for event in operation if isinstance(event, Event)}
    columns = [event for event in events if event.index in shown]
    places = {event.index: place for place, event in enumerate(columns)}
    last = max((place for index, place in places.items() if index <= fatal), default=-1)
    lanes = layout.lanes(operations, places, last)
    spans = itertools.chain(needed(lanes, labels), needed_by_held(walked, places, fatal))
    wide = layout.gaps(least(columns, dict(walked.growth) if walked else {}), spans)
    xs = list(itertools.accumulate(wide, initial=EDGE)) if columns else []
    width = (xs[-1] if xs else 0) + EDGE
    middles = [(left + right) // 2 for left, right in zip(xs, xs[1:])]
    edges = [EDGE // 2] + middles + [width]  # the edges of gap -1, 0, ..
    found = [(text, edges[begin + 1], edges[end + 1]) for text, begin, end in faults.spans(given, columns)]
    bands = faults.rows(sorted(found, key=lambda band: band[1]), room_of_band)
    return View(list(places), xs, width, lanes, bands)


def room_of_band(text: str) -> int:
    return round(min(BAND_LABEL, PADDING + LETTER * letters(text)))


def least(events: Sequence[Event], counts: Dict[int, int]) -> List[int]:
    """The least gap between each event and the next, so that their indices and the numbers of ends fit side by side."""
    rooms = [SMALL_LETTER * max(len(str(event.index)), len(str(counts.get(event.index, "")))) for event in events]
    return [max(LEAST_GAP, round((left + right) / 2 + BESIDE)) for left, right in zip(rooms, rooms[1:])]


def needed_by_held(walked: Optional[Walked], places: Dict[int, int], fatal: int) -> Iterable[Tuple[int, int, int]]:
    """The room for the values that the object could hold, from one ok to the next. The fatal event gets all the room that it needs, and
    other events little."""
    begin = 0
    for index, text in walked.held if walked else ():
        if index in places:
            need = BESIDE + LETTER * letters(text)
            yield begin, places[index], round(min(LABEL if index == fatal else HELD, need))
            begin = places[index]


def needed(lanes: Iterable[layout.Lane], labels: Labels) -> Iterable[Tuple[int, int, int]]:
    """Returns the room that the label of each bar needs, and the two events between which the label is."""
    for lane in lanes:
        for bar in lane.bars:
            text = labels.operation(bar.operation)
            need = PADDING + LETTER * letters(text) + (MARK if MARKS[bar.operation.outcome] else 0)
            yield bar.begin, bar.end, round(min(LABEL, need))
