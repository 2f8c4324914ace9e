"""Prints causes on standard error: the whole cause of the first bad key, and a line for each other bad key."""
from __future__ import annotations

from typing import List, Sequence

from ..forms.recorded import Recorded
from ..tools import command
from . import bad_keys, causes


def told(found: Recorded, keys: Sequence[causes.Shown]) -> List[str]:
    """Prints the causes, and returns the printed lines."""
    lines: List[str] = []
    if keys:
        lines += causes.lines(found, keys[0])
        lines += bad_keys.others_told(found, keys)
    for line in lines:
        command.write_error(line)
    return lines
