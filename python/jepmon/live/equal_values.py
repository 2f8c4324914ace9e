"""Queues with equal values in a live test. The kind wide-fifo-queue does not decide such a key. Then the key is judged by its ends, from
its first event on."""
from __future__ import annotations

from typing import List, Optional, Sequence, Set

from ..history.kinds import DIFFERING, model_of
from ..program import equal_values
from ..program.report import Verdict, verdict_in
from .aftermath import say
from .lines import Line

PATIENCE = 600.0  # seconds in which all events of a key are judged again


class ByEnds:
    """The keys that are judged by ends, since their values are equal. Standard error reports the first such key."""

    def __init__(self, has_said: Optional[Set[str]] = None) -> None:
        self.keys: Set[int] = set()
        self._left: Set[int] = set()  # keys that exceeded their budget by their ends too
        self._has_said = set() if has_said is None else has_said  # the notes that the whole test has printed

    def kind(self, key: int, kind: str) -> str:
        """The kind of a key, if this is the kind of its model."""
        return model_of(DIFFERING) if key in self.keys else kind

    def may_take(self, key: int, kind: str) -> bool:
        """Whether a key that exceeds its budget by this kind is to be judged by its ends."""
        return kind == DIFFERING and key not in self._left

    def take(self, key: int) -> None:
        self.keys.add(key)
        if DIFFERING not in self._has_said:
            self._has_said.add(DIFFERING)
            say(f"{equal_values.note([key])}; so is each later key with equal values")

    def leave(self, key: int) -> None:
        """Notes that the key is over its budget by its ends too."""
        self._left.add(key)

    def forget(self, key: int) -> None:
        """Forgets the key, since the test has named its model again."""
        self.keys.discard(key)
        self._left.discard(key)


def command_of(key: int) -> Line:
    """The command by which a key is judged by its ends."""
    return Line(f"[:model {key} :{model_of(DIFFERING)}]")


def is_further(key: int, index: int, reply: str) -> bool:
    """Whether the judgement by ends reaches further than this index."""
    found = verdict_in(reply)
    if reply.startswith("refused"):
        return False
    return found is None or found.word != "unknown" or found.found is None or found.found[1] != key or found.found[0] > index


def replies_by(lines: Sequence[Line], reply: str) -> List[str]:
    """The replies to lines that were sent together, by the verdict on all of them: legal up to the event that the verdict names."""
    verdict: Optional[Verdict] = verdict_in(reply)
    if verdict is None or verdict.found is None:
        return [reply] * len(lines)
    index = verdict.found[0]
    place = next((place for place, line in enumerate(lines) if line.index >= index), 0)
    return ["legal"] * place + [reply] * (len(lines) - place)
