"""The second pass: the events of keys as texts that one `jepmon check` judges, one key after another. Keys and processes get new numbers.
The number of a key is its place in the text. In each key a process has its own thread, one of 64. If there are more processes, each
operation gets a free thread. If a key leaves operations open and another key follows, an :info ends these operations. This :info changes no
status: no ok of the key follows it, and an operation that may take place later does not make a history illegal. After an :info a thread
continues as process + 64.
"""
from __future__ import annotations

import array
import collections
import itertools
from typing import Dict, Iterator, List, NamedTuple, Optional, Sequence, Tuple

from ..history.line import FRONT
from .by_key import FIELDS, Events, Rest
from .doubt import Doubt
from .lines import of_code
from .routing import NUMBERS
from .sizes import Sizes

FULL, WIDE = "full", "wide"
CLOSING = b"]}\n"
NOWHERE = (1 << 64) - 1  # the place of an event that is in no history


class KeyMap(NamedTuple):
    """A key of a batch: its own number, the number of its events in the history, and the number in the batch. If the batch does not have
    all of them, `cut` says why, and `cut_place` is the index in the history of the first missing event."""

    key: int
    events: int
    judged: int
    cut: str
    cut_place: int


class Batch(NamedTuple):
    """The input of one check: its text, the keys in their order, and the index in the history of each event."""

    text: bytes
    keys: List[KeyMap]
    places: "array.array[int]"


class Spelling(NamedTuple):
    """The beginnings of events of one type and operation, by threads. Each begins with the end of the event before."""

    kind: bytes
    name: bytes
    heads: List[bytes]

    def spell(self, thread: int, process: int) -> None:
        self.heads[thread] = CLOSING + FRONT % (self.kind, process, self.name)


class Threads:
    """The threads of a batch: the current process of each thread, and the spellings of the heads of their events."""

    def __init__(self, threads: int) -> None:
        self.all = range(threads)
        self._current = list(self.all)
        self._spellings: Dict[Tuple[bytes, bytes], Spelling] = {}

    def spelling(self, kind: bytes, name: bytes) -> Spelling:
        found = self._spellings.get((kind, name))
        if found is None:
            found = self._spellings[kind, name] = Spelling(kind, name, [b""] * len(self.all))
            for thread, process in enumerate(self._current):
                found.spell(thread, process)
        return found

    def crash(self, thread: int) -> None:
        """An operation of the thread has ended as :info."""
        self._current[thread] += len(self.all)
        for spelling in self._spellings.values():
            spelling.spell(thread, self._current[thread])


# The meaning of a code: the process, the heads by threads, the spelling of these heads, and whether the event is an :info.
Row = Tuple[int, List[bytes], Spelling, bool]


class Rows(Dict[int, Row]):
    """The meaning of the codes of events."""

    def __init__(self, threads: Threads) -> None:
        super().__init__()
        self._threads = threads

    def __missing__(self, code: int) -> Row:
        kind, process, name = of_code(code)
        spelling = self._threads.spelling(kind, name)
        row = self[code] = process, spelling.heads, spelling, kind == b"info"
        return row


class BatchText:
    """Makes a batch, key by key."""

    def __init__(self, sizes: Sizes) -> None:
        self._sizes = sizes
        self._threads = Threads(sizes.threads)
        self._rows = Rows(self._threads)
        self._heads: List[bytes] = []  # the head of each event
        self._parts: List[bytes] = []
        self._counts: List[int] = []  # the number of events of each key in this batch
        self._open: List[Tuple[int, bytes, bytes]] = []  # the open operations of the last key: the thread, the operation and the operand
        self.keys: List[KeyMap] = []
        self.places = array.array(NUMBERS)

    def has_place(self, events: int) -> bool:
        """Whether a key with this number of events may be added."""
        return len(self.keys) < self._sizes.keys and len(self._heads) + len(self._open) + events <= self._sizes.events

    def add(self, key: int, events: Events, rest: Optional[Rest]) -> None:
        """Adds the events of a key. If the key has more events, `rest` is their tester."""
        self._close()
        rows = list(map(self._rows.__getitem__, events[1:self._sizes.events * FIELDS:FIELDS]))
        processes = collections.Counter([row[0] for row in rows])
        before = len(self._heads)
        if len(processes) <= self._sizes.threads:
            self._add_by_process(rows, processes, events)
        else:
            self._add_by_operation(rows, events)
        judged, count = len(self._heads) - before, len(events) // FIELDS
        self._parts += events[0:judged * FIELDS:FIELDS]
        self.places.extend(events[2:judged * FIELDS:FIELDS])
        self._counts.append(judged)
        cut, cut_place = "", 0
        if judged < count:
            cut = FULL if judged == self._sizes.events else WIDE
            cut_place = events[judged * FIELDS + 2]
            if rest is None:
                rest = Rest()
                rest.take(events)
        self.keys.append(KeyMap(key, count if rest is None else rest.count, judged, cut, cut_place))

    def _add_by_process(self, rows: Sequence[Row], processes: Dict[int, int], events: Events) -> None:
        """Adds a key in which each process has a thread of its own."""
        threads = dict(zip(processes, self._threads.all))
        crashed = [threads[process] for process, _, _, crashes in rows if crashes]
        self._heads += [heads[threads[process]] for process, heads, _, _ in rows]
        if any(count % 2 for count in processes.values()):
            last = {process: place for place, (process, _, _, _) in enumerate(rows) if processes[process] % 2}
            self._open = [(threads[process], rows[place][2].name, events[place * FIELDS]) for process, place in last.items()]
        for thread in crashed:
            self._threads.crash(thread)

    def _add_by_operation(self, rows: Sequence[Row], events: Events) -> None:
        """Adds a key in which each operation has a free thread. If no thread is free, the key is cut."""
        free = list(self._threads.all)
        invoked: Dict[int, Tuple[int, int]] = {}  # for each process: the thread, and the place of the invocation
        for place, (process, heads, spelling, crashes) in enumerate(rows):
            if spelling.kind == b"invoke":
                if not free:
                    break
                thread = free.pop()
                if process in invoked:
                    raise Doubt
                invoked[process] = thread, place
                self._heads.append(heads[thread])
                continue
            if process not in invoked:
                raise Doubt
            thread, _ = invoked.pop(process)
            free.append(thread)
            self._heads.append(heads[thread])
            if crashes:
                self._threads.crash(thread)
        self._open = [(thread, rows[place][2].name, events[place * FIELDS]) for thread, place in invoked.values()]

    def _close(self) -> None:
        """Ends the operations that the last key has left open."""
        for thread, name, part in self._open:
            self._heads.append(self._threads.spelling(b"info", name).heads[thread])
            self._parts.append(part)
            self._threads.crash(thread)
        if self._open:
            self._counts[-1] += len(self._open)
            self.keys[-1] = self.keys[-1]._replace(judged=self._counts[-1])
            self.places.extend([NOWHERE] * len(self._open))
            self._open = []

    def batch(self) -> Batch:
        """Returns the batch of all keys that were added."""
        pieces = [b""] * (3 * len(self._heads))
        numbers = (itertools.repeat(b"%d " % number, count) for number, count in enumerate(self._counts))
        pieces[0::3] = self._heads
        pieces[1::3] = itertools.chain.from_iterable(numbers)
        pieces[2::3] = self._parts
        return Batch(b"".join(pieces)[len(CLOSING):] + CLOSING, self.keys, self.places)


def batches_of(keys: Dict[bytes, Events], rests: Dict[bytes, Rest], sizes: Sizes) -> Iterator[Batch]:
    """The batches of a shard. The events of a key are dropped once a batch has the key."""
    text = BatchText(sizes)
    for key in list(keys):
        events = keys.pop(key)
        if text.keys and not text.has_place(len(events) // FIELDS):
            yield text.batch()
            text = BatchText(sizes)
        text.add(int(key), events, rests.get(key))
    if text.keys:
        yield text.batch()
