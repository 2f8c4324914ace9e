"""The limit of the work for the cause of a verdict. It counts steps and not time, so a history has the same cause on every machine under
any load. If the limit is met, a sentence names the omitted parts."""
from __future__ import annotations

from typing import List

from ..objects.configurations import WORK, Walk

WHOLE = 10_000_000  # for one key; a unit is about a microsecond on an idle machine
ASKING = 3_000  # the cost of a start of the program
CHARACTER = 0.2  # the cost of a character of the text of a question
OUTCOME = 0.1  # the cost of an outcome that the program tries
LEAN = 500.0  # outcomes that the program tries for an event of a wide kind: some fifty in loads of twelve clients without think time
WALKED = 0.5  # the cost of an outcome that a walk of this package tries
GAVE_UP = "Left out, since the limit of work was met: {}."


class Effort:
    """The remaining effort for one key."""

    def __init__(self, whole: float = WHOLE, work: int = WORK) -> None:
        self.left = whole
        self.work = work  # the limit of one walk
        self.left_out: List[str] = []  # the searches that were omitted or not finished, each in a few words
        self._outcomes = 1.0  # the number of outcomes that the program tries for an event of the key

    def learn(self, walked: Walk, is_wide: bool = False) -> None:
        """Learns the cost of an event from a walk through the key's events, and counts the walk. An event of a wide kind costs the program
        at most LEAN, however many ends a walk tries."""
        self.left -= WALKED * walked.tried
        self._outcomes = min(max(1.0, walked.tried / max(1, len(walked.steps))), LEAN if is_wide else float("inf"))

    def may_ask(self, text: str, events: int) -> bool:
        """Returns whether the program may be asked about a text of this size with this number of events, and counts the question."""
        cost = ASKING + CHARACTER * len(text) + OUTCOME * self._outcomes * events
        if cost > self.left:
            return False
        self.left -= cost
        return True

    def leave_out(self, what: str) -> None:
        if what not in self.left_out:
            self.left_out.append(what)

    @property
    def said(self) -> str:
        """Names the omitted searches in a sentence; the text is empty if there are none."""
        return GAVE_UP.format("; ".join(self.left_out)) if self.left_out else ""
