"""The exceptions of a live test: replies of jepmon that are not `legal`. Their shown names are jepmon.Illegal and so on."""
from __future__ import annotations

from typing import Optional, Tuple


class Failed(Exception):
    """Raise it in a block if the operation certainly did not take place. The block ends, and the exception is not raised again."""

    __module__ = "jepmon"


class JepmonError(Exception):
    """A reply of jepmon that is not `legal`, with its key and index if it names them, the last events of the key, and a hint, which may be
    empty. `status` is jepmon's exit status for this reply. `folder` is the folder of the run, if Monitor(out=..) keeps one, and the first
    line of the text names it."""

    __module__ = "jepmon"
    status = 3

    def __init__(
        self,
        reply: str,
        key: Optional[int] = None,
        index: Optional[int] = None,
        events: Tuple[str, ...] = (),
        hint: str = "",
        folder: str = "",
    ) -> None:
        super().__init__(reply, key, index, events, hint, folder)
        self.reply, self.key, self.index, self.events, self.hint, self.folder = reply, key, index, events, hint, folder

    def __str__(self) -> str:
        first, *others = self.reply.split("\n")
        named = f"{first} ({self.folder})" if self.folder else first
        return "\n".join((named, *others, *self.events) + ((self.hint,) if self.hint else ()))


NotLegal = JepmonError  # the former name of JepmonError


class Illegal(JepmonError, AssertionError):
    """The history is not linearizable: the store has answered wrongly, unless the model is wrong (see the hint)."""

    __module__ = "jepmon"
    status = 1


class Unknown(JepmonError):
    """A key has had too many operations open or timed out at once. jepmon does not judge the key from this event on."""

    __module__ = "jepmon"
    status = 2


class Refused(JepmonError):
    """jepmon rejected an option or an event, has ended, or gave no reply: the test is at fault, not the store."""

    __module__ = "jepmon"
