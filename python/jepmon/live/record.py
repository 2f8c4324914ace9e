"""Writes the events and notes of a live test, with the time of each event, to a log and to the folder of the run."""
from __future__ import annotations

import time
from typing import Optional, TextIO

from ..history.fault_notes import note_line
from .run_folder import RunFolder


class Record:
    """The caller has a lock, so that times rise from line to line."""

    def __init__(self, log: Optional[TextIO], folder: Optional[RunFolder], begun: int) -> None:
        self.log, self.folder = log, folder
        self._begun = begun  # the beginning, by time.monotonic_ns

    @property
    def name(self) -> str:
        """The folder, if there is one."""
        return self.folder.name if self.folder is not None else ""

    def write(self, line: str, kept: str) -> None:
        """Writes a sent line to the log, and its kept part, if it is not empty, to the folder."""
        if self.log is None and self.folder is None:
            return
        now = time.monotonic_ns() - self._begun
        if self.log is not None:
            self.log.write(timed(line, now) + "\n")
        if self.folder is not None and kept:
            self.folder.append(timed(kept, now))

    def needs_script(self) -> None:
        """Notes that a command follows. `jepmon check` refuses commands."""
        if self.folder is not None:
            self.folder.needs_script()

    def note(self, kind: str, text: str) -> None:
        """Writes a note of a fault. Notes are not sent to the program."""
        line = note_line(kind, text, time.monotonic_ns() - self._begun)
        if self.log is not None:
            self.log.write(line + "\n")
        if self.folder is not None:
            self.folder.append(line)


def timed(line: str, now: int) -> str:
    """Adds the time to the line of an event. A command gets no time."""
    return f"{line[:-1]}, :time {now}}}" if line.startswith("{") else line
