"""The results of the closed parts of a test. They need the same memory after a day as after a minute."""
from __future__ import annotations

import collections
from typing import Counter, Dict, List, Optional

from ..live.sender import Telling
from ..live.verdicts import NotLegal
from .part import Part

FEW = 10  # objects that are named


class Tally:
    """The sums over all closed parts. The caller has the lock of the test."""

    def __init__(self) -> None:
        self.parts = 0
        self.events = 0
        self.objects = 0
        self.counts: Dict[str, Counter[str]] = {}  # the number of operations by name and outcome
        self.unjudged = 0  # the number of operations that were not recorded
        self.undrained = 0  # the number of queues whose judging ended before they were found empty
        self.also_illegal: Dict[str, str] = {}  # other parts that were found illegal before all parts had ended
        self.dropped = 0  # the number of objects over their budget
        self.first_dropped: List[str] = []  # the first of these objects, with their parts

    def add(self, part: Part, telling: Telling) -> None:
        """Adds a part that was closed."""
        self.parts += 1
        self.events += telling.length
        self.objects += len(part.objects)
        add_counts(self.counts, telling.told.counts())
        self.dropped += len(telling.dropped)
        for key, unknown in list(telling.dropped.items())[:FEW - len(self.first_dropped)]:
            self.first_dropped.append(f"{unknown.reply} of {part.name}: {part.objects[key].name}")

    def verdict(self, failure: Optional[NotLegal], of: str) -> str:
        """The line of the verdict. If something was not judged, a line for each such thing follows."""
        first = self.first_dropped[0].partition(":")[0] if self.first_dropped else "legal"
        lines = [first if failure is None else failure.reply + (f" of {of}" if of else "")]
        lines += [f"also {reply} of {part}" for part, reply in self.also_illegal.items()]
        if self.dropped:
            lines.append(f"not judged to their end: {self.dropped} objects that were over their budget, such as {self.first_dropped[0]}")
        if self.undrained:
            lines.append(f"not judged to their end: {self.undrained} queues that may still hold messages; let consumers keep up")
        if self.unjudged:
            lines.append(f"not judged: {self.unjudged} operations, which began on an object after its judging had ended")
        return "\n".join(lines)


def add_counts(counts: Dict[str, Counter[str]], more: Dict[str, Counter[str]]) -> None:
    for name, outcomes in more.items():
        counts.setdefault(name, collections.Counter()).update(outcomes)
