"""The exceptions that end a test of a server without a verdict: one line, and status 3."""
from __future__ import annotations

import pathlib
import traceback
from typing import Optional


class ServerError(Exception):
    """A server is missing, does not start, has died by itself, or does not answer. Or the command line asks for something that does not
    exist."""


class Died(ServerError):
    """A node has ended although the test has not ended it, or its log says that it has crashed. `how` says which."""

    def __init__(self, node: str, how: str, log: pathlib.Path, said: str = "") -> None:
        super().__init__(f"{node} {how}{said}")
        self.node, self.how, self.log = node, how, log

    @property
    def note(self) -> str:
        """The note for the history when the crash is found."""
        return f"{self.node} {self.how}"


class Crashed(Exception):
    """A strike has crashed the client. Its operation may have taken place, and another client replaces it."""


def where(fault: BaseException, path: Optional[pathlib.Path] = None) -> str:
    """The message of an exception, with its line in the user's file, or else in this package."""
    frames = traceback.extract_tb(fault.__traceback__)
    own = [frame for frame in frames if path is not None and pathlib.Path(frame.filename).resolve() == path.resolve()]
    line = "".join(f" ({pathlib.Path(frame.filename).name}, line {frame.lineno})" for frame in (own or list(frames))[-1:])
    return f"{type(fault).__name__}: {' '.join(str(fault).split())}{line}"
