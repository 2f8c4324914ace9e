"""The events of a history, one after another. A few are held in memory, and those of a long history are written to a file without a
name."""
from __future__ import annotations

import marshal
from typing import IO, Any, Iterator, List, Optional, Sequence, Tuple, Union

from ..edn import Many, Value
from .events import Event, Fault, Row

BATCH = 5_000  # events
HELD = 40  # batches

Kept = Union[Event, Fault]


class Spool:
    """Takes events, and gives them again any number of times."""

    def __init__(self) -> None:
        self._batch: List[Tuple[Any, ...]] = []  # the last events that were taken
        self._batches: List[bytes] = []
        self._file: Optional[IO[bytes]] = None
        self._count = 0

    def append(self, event: Kept) -> None:
        self.extend((flat(event),))

    def extend(self, rows: Sequence[Tuple[Any, ...]]) -> None:
        """Takes events whose operands are flat (flat_part in collect.py)."""
        self._batch += rows
        self._count += len(rows)
        if len(self._batch) >= BATCH:
            self._put(marshal.dumps(self._batch))
            self._batch = []

    def __len__(self) -> int:
        return self._count

    def __iter__(self) -> Iterator[Kept]:
        for batch in self.batches():
            yield from map(kept_of, batch)

    def batches(self) -> Iterator[List[Tuple[Any, ...]]]:
        """Yields the kept events, many at once: each Event and each Fault as a tuple."""
        yield from map(marshal.loads, self._stored())
        yield self._batch

    def __del__(self) -> None:
        if self._file is not None:
            self._file.close()

    def _put(self, batch: bytes) -> None:
        if self._file is None and len(self._batches) < HELD:
            self._batches.append(batch)
            return
        if self._file is None:
            import tempfile

            self._file = tempfile.TemporaryFile()
        self._file.seek(0, 2)
        self._file.write(len(batch).to_bytes(8, "big"))
        self._file.write(batch)

    def _stored(self) -> Iterator[bytes]:
        yield from self._batches
        at = 0
        while self._file is not None:
            self._file.seek(at)  # other readers may have moved the place in the file
            length = int.from_bytes(self._file.read(8), "big")
            if not length:
                return
            yield self._file.read(length)
            at += 8 + length


def flat(event: Kept) -> Tuple[Any, ...]:
    """Returns the event in types that marshal accepts."""
    return tuple(event) if isinstance(event, Fault) else row_of(event)


def row_of(event: Event) -> Row:
    kind, process, name, key, part, own_index, line, beside = event
    return kind, process, name, flat_value(key), flat_value(part), own_index, line, beside


def flat_value(value: Value) -> Any:
    return value if isinstance(value, str) else (value.opened, tuple(map(flat_value, value.members)))


def kept_of(flat: Tuple[Any, ...]) -> Kept:
    return Fault(*flat) if len(flat) == 2 else event_of(flat)


def event_of(row: Tuple[Any, ...]) -> Event:
    kind, process, name, key, part, own_index, line, beside = row
    return Event(kind, process, name, value_of(key), value_of(part), own_index, line, beside)


def value_of(flat: Any) -> Value:
    return flat if isinstance(flat, str) else Many(flat[0], tuple(map(value_of, flat[1])))
