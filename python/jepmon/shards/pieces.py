"""The first pass: a task reads a piece of a history, tests the process rule in it, and writes its events by shards.

Pieces are read in any order, side by side. The reader of a piece assumes two facts that it can't know: the state of each thread at its
first event, and the index of the piece's first event. `follow` tests these facts against the pieces before.

This module does not test that a completion has the key of its invocation. It tests that the events of each process, over all keys,
alternate between invocation and completion. The program tests the same within each key of a shard. So no completion can have another key
than its invocation: the first such completion, in the order of the history, would complete an operation that was not invoked on its key.
"""
from __future__ import annotations

import operator
import os
from typing import Any, BinaryIO, Dict, Iterator, List, NamedTuple, Optional, Sequence

from ..history.kinds import INDICES
from .doubt import Doubt
from .lines import UNSEEN, Heads, Row, idle, rows_of
from .routing import Router, Source
from .sizes import Sizes
from .tally import Counting, Tally


CODE = operator.itemgetter(0)  # of a head


class PieceTask(NamedTuple):
    """The lines of a file that begin within these places, and the folder into which their events are written."""

    path: str
    begin: int
    end: int
    concurrency: int
    shards: int
    folder: str
    sizes: Sizes


class Piece(NamedTuple):
    """The facts that were found about a piece."""

    path: str  # the path of the written file
    slabs: List[int]
    written: List[int]  # the number of bytes of each shard
    events: int
    base: Optional[int]  # the index of its first event, if an event states its index
    starts: Dict[int, int]  # for each thread: the state before its first event
    ends: Dict[int, int]  # for each thread: the state after its last event
    tally: Tally


def read_piece(task: PieceTask) -> Piece:
    """Does the first pass over a piece."""
    path = os.path.join(task.folder, f"{task.begin}.piece")
    counting = Counting()
    router = Router(task.shards, counting=counting)
    events = PieceEvents(task.concurrency, router)
    slabs: List[int] = []
    held = lines = of_events = 0
    with open(path, "wb") as file:
        for block in blocks_of(task):
            rows, taken = rows_of(block)
            events.take(rows)
            lines += block.count(b"\n") + (not block.endswith(b"\n"))
            of_events += taken
            held += len(block)
            if held >= task.sizes.slab:
                slabs.append(router.write(file))
                events.forget()
                counting.forget()
                held = 0
        if held:
            slabs.append(router.write(file))
    ends = {thread: state for thread, state in events.states.items() if state != UNSEEN}
    return Piece(path, slabs, router.written, events.count, events.base, events.starts, ends, counting.tally(events.count, lines, of_events))


class PieceEvents:
    """Takes the events of a piece, in their order: tests them, and passes them to the router."""

    def __init__(self, concurrency: int, router: Router) -> None:
        self.count = 0
        self.base: Optional[int] = None
        self.starts: Dict[int, int] = {}
        self.states: Dict[int, int] = {}
        self._heads = Heads(concurrency, self.states)
        self._router = router

    def take(self, rows: Sequence[Row]) -> None:
        """Takes the next events: column by column, since the work for each single event costs most."""
        if not rows:
            return
        columns: List[Sequence[Any]] = list(zip(*rows))
        stated, texts, keys, parts = columns[:4]
        places: Sequence[int] = range(self.count, self.count + len(rows))
        self.count += len(rows)
        if any(stated):
            for place, index in zip(places, stated):
                if index:
                    self._test_index(int(index), place)
        if not all(texts):  # without the faults, which have no head
            kept = [at for at, text in enumerate(texts) if text]
            texts, keys, parts, places = ([column[at] for at in kept] for column in (texts, keys, parts, places))
        heads = list(map(self._heads.__getitem__, texts))
        states = self.states
        for _, thread, before, after in heads:
            if states[thread] != before:
                self._begin(thread, before)
            states[thread] = after
        self._router.route(keys, parts, list(map(CODE, heads)), places)

    def forget(self) -> None:
        """Forgets the spellings of heads, since a long history has many."""
        self._heads.clear()

    def _begin(self, thread: int, state: int) -> None:
        """Records that a thread has to begin the piece in this state. Raises a Doubt if the thread has had an event in the piece
        already."""
        if self.states[thread] != UNSEEN:
            raise Doubt
        self.starts[thread] = state

    def _test_index(self, stated: int, place: int) -> None:
        """Computes the index of the piece's first event from a stated index."""
        if self.base is None:
            self.base = stated - place
        if self.base != stated - place or stated not in INDICES:
            raise Doubt


def follow(pieces: Sequence[Piece]) -> List[Source]:
    """Tests that each piece begins in the state in which the pieces before it end. Returns the files, with the offsets for their places."""
    states: Dict[int, int] = {}
    sources: List[Source] = []
    count = 0
    for piece in pieces:
        if piece.base not in (None, count):
            raise Doubt
        if any(states.get(thread, idle(thread)) != state for thread, state in piece.starts.items()):
            raise Doubt
        states.update(piece.ends)
        sources.append(Source(piece.path, piece.slabs, count))
        count += piece.events
    return sources


# --- Blocks of whole lines ---


def blocks_of(task: PieceTask) -> Iterator[bytes]:
    """The lines that begin within the piece, in blocks."""
    with open(task.path, "rb") as file:
        begin, end = (line_from(file, place, task.sizes) for place in (task.begin, task.end))
        file.seek(begin)
        rest = b""
        while begin < end:
            data = file.read(min(task.sizes.block, end - begin))
            if not data:
                raise Doubt  # the file has become shorter since the check began
            begin += len(data)
            cut = len(data) if begin == end else data.rfind(b"\n") + 1
            if cut:
                yield rest + data[:cut]
                rest = data[cut:]
            else:
                rest += data
            if len(rest) > task.sizes.line:
                raise Doubt


def line_from(file: BinaryIO, place: int, sizes: Sizes) -> int:
    """The place of the first line that begins at this place or behind it. The end of the file if there is no such line."""
    if place == 0:
        return 0
    at = file.seek(place - 1)
    while at < place + sizes.line:
        data = file.read(sizes.block)
        found = data.find(b"\n")
        if found >= 0:
            return at + found + 1
        if not data:
            return at
        at += len(data)
    raise Doubt
