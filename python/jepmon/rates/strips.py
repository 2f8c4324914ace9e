"""Faults as bars above the charts: a row for each kind of fault, or several rows if faults of a kind overlap. Also the number of active
faults at each time."""
from __future__ import annotations

from typing import Dict, Iterator, List, NamedTuple, Sequence, Tuple

from ..history.fault_texts import kind_of, nodes_of
from .history import Fault

KINDS = 24  # the number of kinds of faults that have rows of their own
ROWS = 6  # the greatest number of rows of a kind
BARS = 1500  # with more bars than this, bars without a pixel between them become one
DEEPEST = 3  # shades distinguish up to this many simultaneous faults
OTHERS = "other faults"


class Bar(NamedTuple):
    """A fault, or several adjacent faults that a picture can't distinguish."""

    texts: List[str]
    who: str  # the nodes that it hits
    begin: int
    end: int


class Row(NamedTuple):
    """A row of bars that do not overlap. Only the first row of a kind has the name of the kind."""

    name: str
    bars: List[Bar]


def rows(faults: Sequence[Fault], end: int, pixels: int) -> List[Row]:
    """The rows, by the first fault of each kind."""
    pixel = max(1, end // pixels)
    of_kind: Dict[str, List[Fault]] = {}
    for fault in faults:
        kind = kind_of(fault.text)
        of_kind.setdefault(kind if kind in of_kind or len(of_kind) < KINDS else OTHERS, []).append(fault)
    made: List[Row] = []
    for kind, mine in of_kind.items():
        laid = _laid(mine, pixel)
        if len(faults) > BARS:
            laid = [list(_thinned(bars, pixel)) for bars in laid]
        made += [Row(kind if place == 0 else "", bars) for place, bars in enumerate(laid)]
    return made


def _laid(faults: Sequence[Fault], pixel: int) -> List[List[Bar]]:
    """Distributes the bars over as many rows as overlaps need. The last row also has the bars for which no row is left."""
    laid: List[List[Bar]] = []
    for fault in faults:
        bar = Bar([fault.text], ", ".join(nodes_of(fault.text)), fault.begin, fault.end)
        free = next((place for place, bars in enumerate(laid) if bars[-1].end + pixel <= fault.begin), len(laid))
        if free == len(laid) and free < ROWS:
            laid.append([])
        laid[min(free, ROWS - 1)].append(bar)
    return laid


def _thinned(bars: Sequence[Bar], pixel: int) -> Iterator[Bar]:
    last = bars[0]
    for bar in bars[1:]:
        if bar.begin - last.end < 2 * pixel:
            last = Bar(last.texts + bar.texts, "", last.begin, max(last.end, bar.end))
        else:
            yield last
            last = bar
    yield last


def depths(faults: Sequence[Fault], pixel: int) -> Iterator[Tuple[int, int, int]]:
    """Spans with 1, 2, or at least DEEPEST active faults: their beginning, end and number. No moment is in two spans. A fault is at least a
    pixel long."""
    changes: Dict[int, int] = {}
    for fault in faults:
        changes[fault.begin] = changes.get(fault.begin, 0) + 1
        end = max(fault.end, fault.begin + pixel)
        changes[end] = changes.get(end, 0) - 1
    depth, begin = 0, 0
    for moment in sorted(changes):
        after = depth + changes[moment]
        if min(after, DEEPEST) != min(depth, DEEPEST):
            if depth > 0:
                yield begin, moment, min(depth, DEEPEST)
            begin = moment
        depth = after
