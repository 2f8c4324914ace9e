"""Leaves no server behind, however the test ends. The guard is a separate process, which kills the remaining servers when the test has
ended.

It reads lines, `+ PID`, `- PID` and `folder PATH`, and acts when its standard input ends, which also happens if SIGKILL has killed the
test.
"""
from __future__ import annotations

import os
import pathlib
import shutil
import subprocess
import sys
import time
from typing import List, Set

from .family import kill_family
from .mounts import unmount_below

PATIENCE, PAUSE = 5.0, 0.05  # the seconds in which a folder is removed, and the seconds between two tries


class Guard:
    """The test's side of the guard."""

    def __init__(self, folder: pathlib.Path) -> None:
        self._process = subprocess.Popen(module("guard"), stdin=subprocess.PIPE, start_new_session=True, env=environment())
        self._tell(f"folder {folder}")

    def watch(self, pid: int) -> None:
        self._tell(f"+ {pid}")

    def leave(self, pid: int) -> None:
        self._tell(f"- {pid}")

    def end(self) -> None:
        """Ends the guard. Before this returns, the guard has killed all watched processes and removed the folder."""
        assert self._process.stdin is not None
        self._process.stdin.close()
        self._process.wait()

    def _tell(self, line: str) -> None:
        assert self._process.stdin is not None
        self._process.stdin.write(line.encode() + b"\n")
        self._process.stdin.flush()


def module(name: str) -> List[str]:
    """The words that run a module of this package as a process."""
    return [sys.executable, "-m", f"{__package__}.{name}"]


def environment() -> "dict[str, str]":
    """The environment in which this package is found."""
    top = str(pathlib.Path(__file__).resolve().parents[2])
    return {**os.environ, "PYTHONPATH": os.pathsep.join(part for part in (top, os.environ.get("PYTHONPATH", "")) if part)}


def main() -> None:
    watched: Set[int] = set()
    folders: List[str] = []
    for line in sys.stdin:
        sign, _, rest = line.rstrip("\n").partition(" ")
        if sign == "folder":
            folders.append(rest)
        elif sign == "+":
            watched.add(int(rest))
        else:
            watched.discard(int(rest))
    for pid in watched:
        kill_family(pid)
    for folder in folders:
        remove(folder)


def remove(folder: str) -> None:
    """Removes a folder, also the mounts in it, since the process that serves a mount may have been killed. Tries again if a process that is
    about to end still writes there."""
    end = time.monotonic() + PATIENCE
    while os.path.lexists(folder):
        unmount_below(folder)
        shutil.rmtree(folder, ignore_errors=True)
        if time.monotonic() > end:
            return
        time.sleep(PAUSE if os.path.lexists(folder) else 0.0)


if __name__ == "__main__":
    main()
