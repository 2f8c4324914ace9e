"""Locks. A removed unit is a block of all operations between two acquires, an acquire and a later release, a release and a later acquire,
or an operation that can only be last."""
from __future__ import annotations

import bisect
from typing import Dict, FrozenSet, Iterator, List, Sequence, Set, Tuple

from ..history import Operation
from .units import NEVER, Unit, begin, end

CUTS = 256  # that are looked at in one history


def of_blocks(operations: Sequence[Operation], places: Sequence[int]) -> List[Unit]:
    acquires, releases = named(operations, places, "acquire"), named(operations, places, "release")
    return [Unit(tuple(sorted(block))) for block in blocks(operations, acquires, releases)] + last_ones(operations, acquires, releases)


def of_pairs(operations: Sequence[Operation], places: Sequence[int]) -> List[Unit]:
    """An acquire, and the release after it."""
    acquires, releases = named(operations, places, "acquire"), named(operations, places, "release")
    return [Unit(pair) for pair in pairs(operations, acquires, releases)] + last_ones(operations, acquires, releases)


def of_handovers(operations: Sequence[Operation], places: Sequence[int]) -> List[Unit]:
    """A release, and the acquire after it."""
    acquires, releases = named(operations, places, "acquire"), named(operations, places, "release")
    return [Unit(pair) for pair in pairs(operations, releases, acquires)] + last_ones(operations, acquires, releases)


def named(operations: Sequence[Operation], places: Sequence[int], name: str) -> List[int]:
    return [place for place in places if operations[place].invocation.name == name]


# --- Blocks ---


def blocks(operations: Sequence[Operation], acquires: List[int], releases: List[int]) -> Iterator[FrozenSet[int]]:
    """The operations that are, in each legal order, before an acquire and not before an earlier acquire. The lock is free before and after
    a block."""
    before: FrozenSet[int] = frozenset()
    for cut in sorted(set(cuts(operations, acquires, releases)), key=len):
        if before < cut:
            yield cut - before
            before = cut


def cuts(operations: Sequence[Operation], acquires: List[int], releases: List[int]) -> Iterator[FrozenSet[int]]:
    """The operations that are, in each legal order, before an acquire that has returned: as many acquires as releases. Suppose that as many
    acquires are certainly before it as releases may be. Then exactly these are before it. The same holds if as many releases are certainly
    before it as acquires may be."""
    returned = [place for place in acquires if end(operations[place]) < NEVER]
    certain = Prefixes(operations, acquires), Prefixes(operations, releases)
    for place in returned[::1 + len(returned) // CUTS]:
        first, last = begin(operations[place]), end(operations[place])
        ended_acquires, begun_acquires = certain[0].ended(first), certain[0].begun(last) - 1  # but this one
        ended_releases, begun_releases = certain[1].ended(first), certain[1].begun(last)
        if ended_acquires == begun_releases:
            yield frozenset(certain[0].by_end[:ended_acquires] + certain[1].by_begin[:begun_releases])
        elif ended_releases == begun_acquires:
            yield frozenset(certain[0].by_begin[:begun_acquires + 1] + certain[1].by_end[:ended_releases]) - {place}


class Prefixes:
    """Operations by their begins, and by their ends."""

    def __init__(self, operations: Sequence[Operation], places: List[int]) -> None:
        self.by_begin = places
        self.by_end = sorted(places, key=lambda place: end(operations[place]))
        self._begins = [begin(operations[place]) for place in self.by_begin]
        self._ends = [end(operations[place]) for place in self.by_end]

    def begun(self, moment: int) -> int:
        return bisect.bisect_left(self._begins, moment)

    def ended(self, moment: int) -> int:
        return bisect.bisect_left(self._ends, moment)


# --- Pairs ---


def pairs(operations: Sequence[Operation], firsts: List[int], seconds: List[int]) -> Iterator[Tuple[int, int]]:
    """Pairs of a first operation and a second operation with the other name, which the first precedes. No operation with the first's name
    that begins after the first can be between the two behind an operation with the other name."""
    first_begins, begins = [begin(operations[place]) for place in firsts], [begin(operations[place]) for place in seconds]
    unended = open_at_begin(operations, firsts, seconds)
    used: Set[int] = set()
    for place in firsts:
        later = range(bisect.bisect(begins, end(operations[place])), len(seconds))
        second = next((seconds[at] for at in later if end(operations[seconds[at]]) < NEVER and seconds[at] not in used), None)
        if second is None:
            continue
        since, until = begin(operations[place]), end(operations[second])
        others = [other for other in unended[place] + among(seconds, begins, since, until) if other != second]
        ended = max((end(operations[other]) for other in among(firsts, first_begins, since, until)), default=-1)
        if all(ended < begin(operations[other]) for other in others):
            used.add(second)
            yield place, second


def among(places: List[int], begins: List[int], since: int, until: int) -> List[int]:
    """The operations that begin between two moments."""
    return places[bisect.bisect(begins, since):bisect.bisect(begins, until)]


def open_at_begin(operations: Sequence[Operation], beginning: List[int], others: List[int]) -> Dict[int, List[int]]:
    """For each operation the others that had begun before it began, and had not ended."""
    found: Dict[int, List[int]] = {}
    unended: List[int] = []
    number = 0
    for place in beginning:
        now = begin(operations[place])
        while number < len(others) and begin(operations[others[number]]) < now:
            unended.append(others[number])
            number += 1
        unended = [other for other in unended if end(operations[other]) > now]
        found[place] = list(unended)
    return found


# --- What can only be last ---


def last_ones(operations: Sequence[Operation], acquires: List[int], releases: List[int]) -> List[Unit]:
    """An operation that began after each operation with the other name had ended. In a legal order it is the last one, or is not in the
    order."""
    units: List[Unit] = []
    for places, others in ((acquires, releases), (releases, acquires)):
        ended = max((end(operations[other]) for other in others), default=-1)
        units += [Unit((place,)) for place in places if ended < begin(operations[place])]
    return units
