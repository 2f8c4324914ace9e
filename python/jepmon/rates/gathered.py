"""The data of a page of rates: operations, counted by name, outcome, time and latency. The memory does not grow with their number."""
from __future__ import annotations

import collections
import functools
import math
from typing import Counter, Dict, List, Tuple

from .moments import Moments

COLUMN = 10_000_000  # the nanoseconds of a column; if a run has more than COLUMNS columns, pairs of columns are joined
COLUMNS = 480
BITS = 6  # the leading bits of a latency that are kept for quantiles: a bin is 1/64 of the latency wide
STEPS = 12  # a picture shows latencies in this many steps for each decade
OUTCOMES = ("ok", "fail", "info")

Sort = Tuple[str, str]  # a sort of operations: name and outcome
Cells = Counter[Tuple[int, int]]  # the number of operations, by the column of their begin and the step of their latency


class Gathered:
    """Operations are added in any order. Times are nanoseconds from the begin of the run."""

    def __init__(self) -> None:
        self.column = COLUMN
        self.ended: Dict[Sort, Counter[int]] = {}  # the number of operations that ended in each column
        self.cells: Dict[Sort, Cells] = {}
        self.bins: Dict[Sort, Counter[int]] = {}  # the number of operations with a latency of each bin
        self.most: Dict[Sort, int] = {}  # the greatest latency
        self.open: Counter[str] = collections.Counter()  # the number of operations that never completed, by name
        self.oks = Moments()
        self.end = 0

    def add(self, name: str, outcome: str, begin: int, end: int) -> None:
        sort, took = (name, outcome), max(0, end - begin)
        if end > self.end:
            self.end = end
            while end // self.column >= COLUMNS:
                self._join()
        if sort not in self.ended:
            self.ended[sort], self.cells[sort], self.bins[sort] = collections.Counter(), collections.Counter(), collections.Counter()
            self.most[sort] = took
        place = bin_of(took)
        self.ended[sort][end // self.column] += 1
        self.cells[sort][begin // self.column, step_of(place)] += 1
        self.bins[sort][place] += 1
        if took > self.most[sort]:
            self.most[sort] = took
        if outcome == "ok":
            self.oks.add(end)

    def _join(self) -> None:
        """Joins each two columns."""
        self.column *= 2
        for sort in self.ended:
            ended: Counter[int] = collections.Counter()
            for column, count in self.ended[sort].items():
                ended[column // 2] += count
            cells: Cells = collections.Counter()
            for (column, step), count in self.cells[sort].items():
                cells[column // 2, step] += count
            self.ended[sort], self.cells[sort] = ended, cells

    @property
    def names(self) -> List[str]:
        """Returns the names of the operations."""
        return sorted({name for name, _ in self.ended} | set(self.open))

    def count(self, name: str, outcome: str) -> int:
        return sum(self.ended.get((name, outcome), collections.Counter()).values())

    def quantile(self, sort: Sort, share: float) -> int:
        """The latency, in nanoseconds, that this share of the operations did not exceed. The result is at most 1/64 too great."""
        bins = self.bins[sort]
        left, place = share * sum(bins.values()), 0
        for place in sorted(bins):
            left -= bins[place]
            if left <= 1e-9:
                break
        return min(self.most[sort], highest_of(place))


def bin_of(latency: int) -> int:
    shift = max(0, latency.bit_length() - BITS - 1)
    return (shift << BITS) + (latency >> shift)


def highest_of(place: int) -> int:
    """The greatest latency of a bin."""
    shift = max(0, (place >> BITS) - 1)
    return ((place - (shift << BITS) + 1) << shift) - 1


@functools.lru_cache(maxsize=None)
def step_of(place: int) -> int:
    """The step of a bin: STEPS for each decade, 0 is a microsecond."""
    return max(0, math.floor(STEPS * math.log10(max(1, highest_of(place)) / 1000)))
