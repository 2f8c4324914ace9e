"""The positions of the bars of operations: the row of each bar, and the gaps between events that leave room for the labels.

A place is the number of an event among those that are shown, from 0; gap i is from event i to event i + 1. The page (in pixels), the
picture of the README (in pixels) and the terminal (in characters) have the same layout.
"""
from __future__ import annotations

from typing import Dict, Iterable, List, NamedTuple, Sequence, Tuple

from ..history import Operation

LATE_ROWS = 6  # rows below a client's own row, for timed-out operations; if more are needed, the newest bar cuts the oldest


class Bar(NamedTuple):
    """The bar of an operation: from event `begin` to event `end`, or to the right edge (`end` is then the number of events). Row 0 of a
    lane is the client's own row. The rows below have operations that timed out and may take place later. `told` is the place of the
    :info."""

    operation: Operation
    row: int
    begin: int
    end: int
    told: int


class Lane(NamedTuple):
    """The bars of a client, and the number of their rows."""

    thread: int
    rows: int
    bars: List[Bar]


def stays(operation: Operation) -> bool:
    """Whether the operation timed out and may still take place. A read without an answer says nothing, but a dequeue may take a value
    out."""
    return operation.outcome == "info" and operation.invocation.name != "read"


def lanes(operations: Sequence[Operation], places: Dict[int, int], last: int) -> List[Lane]:
    """The lanes of these operations; `places` has the place of each event's index. If an operation that began at place `last` or before
    timed out, its bar reaches the right edge. The bar of a later operation, which has no judged event, ends at its :info."""
    of_thread: Dict[int, List[Operation]] = {}
    for operation in operations:
        of_thread.setdefault(operation.thread, []).append(operation)
    return [lane(thread, of_thread[thread], places, last) for thread in sorted(of_thread)]


def lane(thread: int, operations: Sequence[Operation], places: Dict[int, int], last: int) -> Lane:
    edge = len(places)
    bars: List[Bar] = []
    late: List[int] = []  # for each row below the first: the number of its bar that reaches to the right edge
    for operation in sorted(operations, key=lambda each: each.invocation.index):
        begin = places.get(operation.invocation.index, -1)
        ended = operation.completion
        told = edge if ended is None else places.get(ended.index, edge)
        row, end = 0, told
        if stays(operation) and begin <= last:
            row, end = row_for(late, bars, begin), edge
            late[row - 1] = len(bars)
        bars.append(Bar(operation, row, begin, end, told))
    return Lane(thread, 1 + len(late), bars)


def row_for(late: List[int], bars: List[Bar], begin: int) -> int:
    """A row below the first for one more bar. If there is no further row, the oldest bar there is cut."""
    if len(late) < LATE_ROWS:
        late.append(-1)
        return len(late)
    oldest = min(range(len(late)), key=lambda row: bars[late[row]].begin)
    bars[late[oldest]] = bars[late[oldest]]._replace(end=begin)
    return oldest + 1


def gaps(least: Sequence[int], spans: Iterable[Tuple[int, int, int]]) -> List[int]:
    """The gaps. Each gap has at least its given width, and each span (from event, to event, room for its label) gets enough room."""
    wide = list(least)
    for begin, end, need in sorted(spans, key=lambda span: span[1] - span[0]):
        begin, end = max(begin, 0), min(end, len(wide))
        have = 0
        for gap in range(begin, end):
            have += wide[gap]
            if have >= need:
                break
        else:
            if end > begin:
                widen(wide, begin, end, need - have)
    return wide


def widen(wide: List[int], begin: int, end: int, by: int) -> None:
    """Widens these gaps by this amount together, as evenly as possible."""
    each, left = divmod(by, end - begin)
    for gap in range(begin, end):
        wide[gap] += each + (1 if gap - begin < left else 0)
