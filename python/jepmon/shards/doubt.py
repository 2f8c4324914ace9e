"""The failures of a check by shards."""
from __future__ import annotations

from ..tools.errors import ProgramError


class Doubt(Exception):
    """Something is refused, or the quick reader cannot read it. The exact reader decides which. The text is shown if the exact reader
    refuses nothing: then this package or the program has a fault."""


class ShardsError(ProgramError):
    """A verdict is not possible, for this reason of one line: no room on a disk, a process that somebody killed, a missing file."""
