"""The unsynced part of a file: the blocks that were written since its last sync, with their old bytes. With these its durable contents can
be restored, as after a power failure."""
from __future__ import annotations

import os
import random
from typing import Dict

BLOCK, SECTOR = 4096, 512  # bytes; a disk writes a sector whole, or not at all


class Unsynced:
    """The unsynced part of one file, from its last sync on. `file` is open to be read and written."""

    def __init__(self, file: int) -> None:
        self._file = file
        self._length = os.fstat(file).st_size  # the length at the last sync
        self._blocks: Dict[int, bytes] = {}  # for each block number: its bytes at the last sync, empty beyond the length

    @property
    def size(self) -> int:
        """The number of bytes that would be lost, in whole blocks."""
        return len(self._blocks) * BLOCK

    def before(self, at: int, size: int) -> None:
        """Notes that this number of bytes will be written from this place on."""
        for number in range(at // BLOCK, (at + size - 1) // BLOCK + 1 if size else 0):
            if number not in self._blocks:
                known = max(0, min(BLOCK, self._length - number * BLOCK))
                self._blocks[number] = os.pread(self._file, known, number * BLOCK) if known else b""

    def before_length(self, length: int) -> None:
        """Notes that the file will get this length, shorter or longer."""
        self.before(length, max(0, self._length - length))

    def lose(self) -> None:
        """Loses all unsynced data."""
        for number, had in self._blocks.items():
            os.pwrite(self._file, had, number * BLOCK)
        os.ftruncate(self._file, self._length)

    def tear(self, draws: random.Random) -> None:
        """Keeps or loses each unsynced sector, by a coin. The file is then long enough for the last kept sector, and not shorter than at
        its last sync. Lost sectors beyond the old length are zeros."""
        now, length = os.fstat(self._file).st_size, self._length
        for number, had in self._blocks.items():
            begin = number * BLOCK
            has = os.pread(self._file, BLOCK, begin)
            made = bytearray()
            for at in range(0, BLOCK, SECTOR):
                is_kept = begin + at < now and draws.random() < 0.5
                made += (has if is_kept else had)[at:at + SECTOR].ljust(SECTOR, b"\0")
                if is_kept:
                    length = max(length, min(now, begin + at + SECTOR))
            os.pwrite(self._file, made, begin)
        os.ftruncate(self._file, length)
