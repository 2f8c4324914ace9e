"""The exchange of a live test with the running program. Faults of the program, and of the test, are raised as Refused."""
from __future__ import annotations

import os
import threading
from typing import List, Optional, Union

from ..program import Options, ProgramError, Script, by_ends_note, find_program
from .hints import hint_of_refusal
from .verdicts import Refused

PATIENCE = 10.0  # the longest time for an optional question, such as a try of another model


class Exchange:
    """A running `jepmon script`, which replies to each line. One thread at a time may use it."""

    def __init__(self, options: Options, timeout: float, program: Union[str, os.PathLike[str], None]) -> None:
        self._lock, self._options = threading.Lock(), options
        try:
            self.program = find_program(os.fspath(program) if program is not None else None)
        except ProgramError as fault:
            raise FileNotFoundError(str(fault)) from None
        try:
            self._script = Script(options.words(self.program), timeout, self.program)
        except ProgramError as fault:
            if isinstance(fault.__cause__, OSError):
                raise fault.__cause__ from None
            raise refused(fault) from None

    def replies(self, lines: List[str], timeout: Optional[float] = None) -> List[str]:
        """Sends lines, and waits for the reply to each. Raises Refused if the program has ended, or does not reply in time."""
        try:
            with self._lock:
                return self._script.replies(lines, timeout)
        except ProgramError as fault:
            raise refused(fault) from None

    def kind(self, model: Optional[str] = None) -> str:
        """The kind by which keys of this model are judged. Without a model, the kind of keys for which no model was named."""
        return self._options.kind(self.program, model)

    def model_line(self, key: int, model: str) -> str:
        """The command by which a key is of this model."""
        return f"[:model {key} :{self.kind(model)}]"

    def by_ends_note(self, model: str) -> str:
        return by_ends_note(self._options._replace(model=model), self.program)

    def is_legal_as(self, key: int, index: int, model: str) -> bool:
        """Whether the events of the key up to this one are legal by this model. There is a verdict already, so the program is free to judge
        the key again."""
        try:
            reply = self.replies([f"[:rewind {index + 1}]", self.model_line(key, model)], PATIENCE)[1]
        except Refused:
            return False
        return not reply.startswith((f"illegal key {key} ", f"unknown key {key} ", "refused "))

    def end(self) -> None:
        """Ends the program, after the awaited replies."""
        with self._lock:
            self._script.end()


def refused(fault: ProgramError) -> Refused:
    return Refused(str(fault), hint=hint_of_refusal(str(fault)))
