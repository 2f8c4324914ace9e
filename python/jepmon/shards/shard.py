"""The way from a history to its shards: the first pass over all pieces, and the division of shards that are large."""
from __future__ import annotations

import os
from typing import Iterator, List, NamedTuple, Tuple

from ..program import Options
from .pieces import Piece, PieceTask, follow, read_piece
from .progress import Progress
from .routing import Router, Source, segments_of
from .sizes import Sizes
from .tally import Tally, total
from .team import Team, in_order


class Shard(NamedTuple):
    """Some keys of a history, with all their events. The fields are the files with these events, the number of the shard in the files, a
    name, the number of bytes, the number of divisions, and whether the shard may be divided again."""

    sources: List[Source]
    number: int
    name: str
    written: int
    level: int
    may_be_divided: bool


class Division(NamedTuple):
    """A shard that is divided into `parts` parts, which are written to a file in this folder."""

    shard: Shard
    parts: int
    folder: str
    sizes: Sizes


class Divided(NamedTuple):
    source: Source
    written: List[int]


def shards_of(path: str, length: int, options: Options, folder: str, team: Team, sizes: Sizes,
              progress: Progress) -> Tuple[List[Shard], Tally]:
    """The shards of a history, whose events are written to this folder, and the counts of its events. Raises a Doubt if something is
    refused."""
    if length == 0:
        return [], Tally()
    step, count = sizes.piece_length(length), sizes.shard_count(length)
    tasks = [PieceTask(path, begin, min(begin + step, length), options.concurrency, count, folder, sizes)
             for begin in range(0, length, step)]
    pieces: List[Piece] = in_order(progress.over("read", team.run(read_piece, tasks), len(tasks)))
    sources = follow(pieces)
    sums = [sum(of_shard) for of_shard in zip(*(piece.written for piece in pieces))]
    shards = [Shard(sources, number, f"{number}", written, 0, True) for number, written in enumerate(sums) if written]
    return divided(shards, folder, team, sizes, progress), total(piece.tally for piece in pieces)


def divided(shards: List[Shard], folder: str, team: Team, sizes: Sizes, progress: Progress) -> List[Shard]:
    """The shards, in which each large shard is replaced by its parts, until all are small."""
    done: List[Shard] = []
    while shards:
        large = [shard for shard in shards if shard.may_be_divided and shard.written >= sizes.large]
        done += [shard for shard in shards if shard not in large]
        tasks = [Division(shard, max(2, sizes.shard_count(shard.written)), folder, sizes) for shard in large]
        parts = in_order(progress.over("divided", team.run(divide, tasks), len(tasks)))
        shards = [part for shard, found in zip(large, parts) for part in parts_of(shard, found)]
    return done


def parts_of(shard: Shard, found: Divided) -> Iterator[Shard]:
    """The shards into which a shard was divided. A part that is nearly the whole shard, since nearly all events are of one key, is not
    divided again."""
    for number, written in enumerate(found.written):
        if written:
            yield Shard([found.source], number, f"{shard.name}-{number}", written, shard.level + 1, written * 10 < shard.written * 9)


def divide(division: Division) -> Divided:
    """Writes the events of a shard by smaller ones."""
    shard = division.shard
    router = Router(division.parts, shard.level + 1)
    path = os.path.join(division.folder, shard.name + ".divided")
    slabs: List[int] = []
    held = 0
    with open(path, "wb") as file:
        for segment in segments_of(shard.sources, shard.number):
            router.route(segment.keys, segment.parts, segment.codes, list(map(segment.base.__add__, segment.places)))
            held += len(segment.keys)
            if held >= division.sizes.slab_events:
                slabs.append(router.write(file))
                held = 0
        slabs.append(router.write(file))
    return Divided(Source(path, slabs, 0), router.written)
