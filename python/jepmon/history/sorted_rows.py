"""Sorts rows by their first field. It holds a few rows in memory, sorts many rows in runs, and writes the runs to a file without a name."""
from __future__ import annotations

import heapq
import marshal
from typing import IO, Any, Iterator, List, Optional, Tuple

Row = Tuple[Any, ...]  # types that marshal accepts; fields before a field that can't be compared decide the order of two rows

HELD = 20_000  # rows
BATCH = 250  # rows of a run that are read at once


class SortedRows:
    """Takes rows in any order, and gives them in sorted order, any number of times."""

    def __init__(self, held: int = HELD) -> None:
        self._held = held
        self._rows: List[Row] = []
        self._runs: List[List[Tuple[int, int]]] = []  # for each run its batches: the place of each in the file, and its bytes
        self._file: Optional[IO[bytes]] = None
        self._is_sorted = True
        self._count = 0

    def put(self, row: Row) -> None:
        self._rows.append(row)
        self._count += 1
        self._is_sorted = False
        if len(self._rows) >= self._held:
            self._write()

    def __len__(self) -> int:
        return self._count

    def __iter__(self) -> Iterator[Row]:
        if not self._is_sorted:
            self._rows.sort()
            self._is_sorted = True
        if not self._runs:
            return iter(self._rows)
        return iter(heapq.merge(*map(self._of_run, self._runs), self._rows))

    def __del__(self) -> None:
        if self._file is not None:
            self._file.close()

    def _write(self) -> None:
        if self._file is None:
            import tempfile  # loaded here, since loading takes time and is seldom necessary

            self._file = tempfile.TemporaryFile()
        self._rows.sort()
        run: List[Tuple[int, int]] = []
        at = self._file.seek(0, 2)
        for begin in range(0, len(self._rows), BATCH):
            length = self._file.write(marshal.dumps(self._rows[begin:begin + BATCH]))
            run.append((at, length))
            at += length
        self._runs.append(run)
        self._rows = []

    def _of_run(self, run: List[Tuple[int, int]]) -> Iterator[Row]:
        for at, length in run:
            assert self._file is not None
            self._file.seek(at)
            yield from marshal.loads(self._file.read(length))
