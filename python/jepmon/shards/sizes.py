"""The size of a task, and the limits of the program. Tests make them small. The report does not depend on them."""
from __future__ import annotations

from typing import NamedTuple

from ..history import kinds


class Sizes(NamedTuple):
    """Sizes in bytes, and counts."""

    block: int = 512 << 10  # the bytes of the history that are parsed at once
    line: int = 8 << 20  # the exact reader reads a longer line
    piece: int = 16 << 20  # the bytes of the history that one task of the first pass reads
    pieces: int = 1024 # the greatest number of pieces; a longer history has larger pieces
    slab: int = 16 << 20  # the bytes of the history that are in memory before they are written by shards
    shard: int = 8 << 20  # the bytes of the history that one task of the second pass judges
    shards: int = 512  # the greatest number of shards; a longer history has larger shards, which are divided again
    large: int = 64 << 20  # a written shard of at least this size is divided
    merged: int = 64  # results that are merged at once
    events: int = kinds.EVENTS  # the program's limit of events in one check
    keys: int = len(kinds.KEYS)
    threads: int = kinds.THREADS

    @property
    def slab_events(self) -> int:
        """Returns the number of events of a shard that are in memory before they are written by smaller shards."""
        return max(1, self.slab // 50)

    def piece_length(self, length: int) -> int:
        """Returns the bytes of a history of this length that one task of the first pass reads."""
        return max(1, self.piece, -(-length // self.pieces))

    def shard_count(self, length: int) -> int:
        """Returns the number of shards of a history of this length."""
        return max(1, min(self.shards, -(-length // max(1, self.shard))))

    def for_jobs(self, length: int, jobs: int) -> "Sizes":
        """Returns smaller sizes, so that a short history gives enough tasks."""
        share = max(1 << 20, length // (2 * jobs))
        return self._replace(piece=min(self.piece, share), shard=min(self.shard, share))
