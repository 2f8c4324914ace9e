"""The test's side of disks that can lose power: the folder of each node is a mount, which a separate process serves (disk.py)."""
from __future__ import annotations

import pathlib
import subprocess
import threading
from typing import Optional

from . import mounts
from .errors import ServerError
from .guard import environment, module


class Disk:
    """The disk of one node. It exists until `end`. If the test dies, the end of its standard input or the guard removes it."""

    def __init__(self, point: pathlib.Path, backing: pathlib.Path) -> None:
        self._point, self._lock = str(point), threading.Lock()
        backing.mkdir()
        self._process = subprocess.Popen([*module("disk"), str(backing), self._point], stdin=subprocess.PIPE, stdout=subprocess.PIPE,
                                         stderr=subprocess.DEVNULL, start_new_session=True, env=environment())
        if self._answer() != "ok":
            self.end()
            raise ServerError(f"a disk that can lose power can't be made: {mounts.why_not() or 'its process has ended'}")

    def sync(self) -> None:
        """Makes all data durable."""
        self._tell("sync")

    def lose(self) -> str:
        """Loses unsynced data. Returns how much: `lost FILES BYTES`."""
        return self._tell("lose")

    def tear(self, seed: int) -> str:
        """Lets a coin decide for each unsynced sector whether it is kept or lost."""
        return self._tell(f"tear {seed}")

    def end(self) -> None:
        for pipe in (self._process.stdin, self._process.stdout):
            if pipe is not None:
                pipe.close()
        self._process.wait()

    def _tell(self, line: str) -> str:
        assert self._process.stdin is not None
        with self._lock:
            try:
                mounts.flush(self._point)
                self._process.stdin.write(line.encode() + b"\n")
                self._process.stdin.flush()
            except (OSError, ValueError) as fault:
                raise ServerError(f"the disk at {self._point} has ended: {fault}") from fault
            answer = self._answer()
            if not answer:
                raise ServerError(f"the disk at {self._point} has ended")
            return answer

    def _answer(self) -> str:
        assert self._process.stdout is not None
        return self._process.stdout.readline().decode().strip()


def why_not() -> Optional[str]:
    """Returns the reason why such a disk is impossible here. None if it is possible."""
    reason = mounts.why_not()
    return f"it needs a file system by FUSE, as root on Linux: {reason}" if reason else None
