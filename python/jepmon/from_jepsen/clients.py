"""The clients of a Jepsen history: processes that are numbers, and processes with names that invoke something.

Jepsen's own processes are numbers from 0 on, and its nemesis is :nemesis. A test may also name its clients :c1 or "n1-4".
"""
from __future__ import annotations

from typing import Dict, Optional

from ..edn import Value, integer, string

NATURAL = range(0, 1 << 63)
NEMESIS = (":nemesis", '"nemesis"')
FIRST = 1 << 62  # the first number for clients with names, if clients that are numbers come before them


class Clients:
    """The number of each client."""

    def __init__(self) -> None:
        self.names: Dict[int, str] = {}  # the names by number, for clients that have a name
        self.are_named = False  # whether the first client has a name; then each client gets a number when it first occurs
        self._numbers: Dict[Value, int] = {}
        self._has_begun = False

    def number_of(self, process: Optional[Value], invokes: bool) -> Optional[int]:
        """The number of the process of an event. None if the process is not a client."""
        number = integer(process)
        if number is not None and not self.are_named:
            self._has_begun = True
            return number if number in NATURAL else None
        if not isinstance(process, str) or number is None and not is_name(process):
            return None
        if process not in self._numbers:
            if not invokes and number is None:
                return None
            self._begin(process)
        return self._numbers[process]

    def has_numbers(self) -> None:
        """Notes that there are clients that are numbers."""
        self._has_begun = True

    def _begin(self, process: str) -> None:
        self.are_named = self.are_named or not self._has_begun
        self._has_begun = True
        number = len(self._numbers) + (0 if self.are_named else FIRST)
        self._numbers[process] = number
        self.names[number] = process

    def shown(self, number: int) -> str:
        """The name of a client in messages."""
        return self.names.get(number, f"process {number}")


def is_name(process: str) -> bool:
    """Returns whether a process may be the name of a client: a keyword, a string or a symbol."""
    if process in NEMESIS or process in ("nil", "true", "false"):
        return False
    if process[0] == '"':
        return bool(string(process).strip())
    return process[0].isalpha() or process[0] == ":" and len(process) > 1
