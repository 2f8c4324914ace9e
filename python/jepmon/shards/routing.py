"""The events of a history by shards of their keys, in files between the two passes.

Such a file has slabs, one after another. In a slab the events of a shard are together, field by field: a Segment. Behind the segments is
the slab's directory. It has, for each shard, the beginning of its segment, the bytes of its keys and of its parts, and the number of its
events.
"""
from __future__ import annotations

import array
import operator
import zlib
from typing import Any, BinaryIO, Callable, Iterator, List, NamedTuple, Optional, Sequence, Tuple

from .tally import Counting

FIELDS = 4  # the fields of a shard in a directory
NUMBERS = "Q"
WIDTH = array.array(NUMBERS).itemsize


class Segment(NamedTuple):
    """Events of a shard, in their order. The places are those in the history, less the base."""

    keys: List[bytes]
    parts: List[bytes]
    codes: "array.array[int]"
    places: "array.array[int]"
    base: int


class Source(NamedTuple):
    """A file with slabs: the places of their directories, and the offset for its places."""

    path: str
    slabs: Sequence[int]
    base: int


class Router:
    """Takes events by the shards of their keys."""

    def __init__(self, shards: int, level: int = 0, counting: Optional[Counting] = None) -> None:
        self._level, self._counting = level, counting
        self._routed: List[List[int]] = [[] for _ in range(shards)]  # for each shard, the numbers of its events
        self._puts = [routed.append for routed in self._routed]
        self._keys: List[List[bytes]] = [[] for _ in range(shards)]
        self._parts: List[List[bytes]] = [[] for _ in range(shards)]
        self._codes = [array.array(NUMBERS) for _ in range(shards)]
        self._places = [array.array(NUMBERS) for _ in range(shards)]
        self.written = [0] * shards  # the number of bytes of each shard

    def route(self, keys: Sequence[bytes], parts: Sequence[bytes], codes: Sequence[int], places: Sequence[int]) -> None:
        """Takes these events. The caller passes only few at once, so that they stay in the cache. The tests of single events would cost
        most, so they are done on whole columns."""
        puts = self._puts
        for at, shard in enumerate(shards_of_keys(keys, len(puts), self._level)):
            puts[shard](at)
        for shard, routed in enumerate(self._routed):
            if routed:
                pick = picker(routed)
                of_shard = pick(codes)
                self._keys[shard].append(b" ".join(pick(keys)))
                self._parts[shard].append(b"\n".join(pick(parts)))
                self._codes[shard].extend(of_shard)
                self._places[shard].extend(pick(places))
                if self._counting is not None:
                    self._counting.take(of_shard, self._parts[shard][-1])
                routed.clear()

    def write(self, file: BinaryIO) -> int:
        """Writes the routed events as a slab, and forgets them. Returns the place of its directory."""
        directory = array.array(NUMBERS)
        for shard, codes in enumerate(self._codes):
            keys, parts = b" ".join(self._keys[shard]), b"\n".join(self._parts[shard])
            directory.extend((file.tell(), len(keys), len(parts), len(codes)))
            file.write(keys)
            file.write(parts)
            file.write(codes.tobytes())
            file.write(self._places[shard].tobytes())
            self.written[shard] += len(keys) + len(parts) + 2 * WIDTH * len(codes)
            self._keys[shard], self._parts[shard] = [], []
            self._codes[shard], self._places[shard] = array.array(NUMBERS), array.array(NUMBERS)
        at = file.tell()
        file.write(directory.tobytes())
        return at


def picker(places: Sequence[int]) -> Callable[[Sequence[Any]], Tuple[Any, ...]]:
    """A function that takes the fields at these places (at least one) from a column."""
    if len(places) == 1:
        return lambda column: (column[places[0]],)
    found: Callable[[Sequence[Any]], Tuple[Any, ...]] = operator.itemgetter(*places)
    return found


def shards_of_keys(keys: Sequence[bytes], shards: int, level: int) -> List[int]:
    """The shard of each key. On each level the keys of one shard of the level above are distributed again."""
    if level:
        return [zlib.crc32(key + b" level %d" % level) % shards for key in keys]
    crc32 = zlib.crc32
    return [crc32(key) % shards for key in keys]


def directory_of(file: BinaryIO, slab: int, shard: int) -> Tuple[int, int, int, int]:
    """A shard's row in the directory of a slab: where it begins, bytes of keys, bytes of parts, events."""
    file.seek(slab + shard * FIELDS * WIDTH)
    row = array.array(NUMBERS)
    row.fromfile(file, FIELDS)
    return row[0], row[1], row[2], row[3]


def segments_of(sources: Sequence[Source], shard: int) -> Iterator[Segment]:
    """The segments of a shard, in the order of the history."""
    for source in sources:
        with open(source.path, "rb") as file:
            for slab in source.slabs:
                begin, keys, parts, count = directory_of(file, slab, shard)
                if count:
                    file.seek(begin)
                    yield Segment(file.read(keys).split(b" "), file.read(parts).split(b"\n"), numbers_of(file, count),
                                  numbers_of(file, count), source.base)


def numbers_of(file: BinaryIO, count: int) -> "array.array[int]":
    numbers = array.array(NUMBERS)
    numbers.fromfile(file, count)
    return numbers
