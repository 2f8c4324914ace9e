"""Reads of registers that answer nil although a value was there: the nil may say nothing, or it may say that the value is lost."""
from __future__ import annotations

from typing import Dict, List, NamedTuple, Sequence, Set

from .lines import KIND_BITS, NAME_BITS, code_of
from .routing import Source, segments_of
from .tally import SORT

BEGIN, ANSWER = code_of(b"invoke", 0, b"read"), code_of(b"ok", 0, b"read")
WRITES = frozenset((code_of(b"ok", 0, b"write"), code_of(b"ok", 0, b"cas")))


class NilsTask(NamedTuple):
    """A shard whose reads are counted: the files that have it."""

    sources: List[Source]
    shard: int


def nils_of(task: NilsTask) -> int:
    """The number of reads of a shard that answer nil and began after their key had a value."""
    counting = Counting()
    for segment in segments_of(task.sources, task.shard):
        counting.take(segment.keys, segment.parts, segment.codes)
    return counting.count


class Counting:
    """Follows the events of keys."""

    def __init__(self) -> None:
        self.count = 0
        self._valued: Set[bytes] = set()  # keys with a value
        self._had_value: Dict[int, bool] = {}  # whether the key of each process's read had one as that began

    def take(self, keys: Sequence[bytes], parts: Sequence[bytes], codes: Sequence[int]) -> None:
        valued, had_value = self._valued, self._had_value
        for key, part, code in zip(keys, parts, codes):
            sort = code & SORT
            if sort == BEGIN:
                had_value[code >> KIND_BITS + NAME_BITS] = key in valued
            elif sort == ANSWER and part == b"nil":
                self.count += had_value[code >> KIND_BITS + NAME_BITS]
            elif sort in WRITES or sort == ANSWER and part[:1] != b"#":
                valued.add(key)
