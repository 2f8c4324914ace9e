"""The possible sources of a value that a key answers: the key's operations that brought values in, and which of them failed."""
from __future__ import annotations

import collections
import re
from typing import Counter, Dict, Tuple

from ..history.kinds import ABSENT, ANSWERED, BROUGHT
from ..history.line import LINE

MOST_HINTS = 16


class Sources:
    """Learns each recorded event, and describes the strange part of an illegal answer."""

    def __init__(self) -> None:
        self.are_new = False  # whether the keys are new to the store, so that it can't have held anything under them
        self._brought: Counter[Tuple[int, str]] = collections.Counter()  # for each key and value: how many operations wrote it without failing
        self._failed: Dict[Tuple[int, str], str] = {}  # for each key and value: the last failed operation that would have written it, in words
        self._began: Dict[int, int] = {}  # the index at which each process has invoked its operation

    def tell(self, kind: str, process: int, name: str, key: int, part: str, index: int) -> None:
        began = self._began.pop(process, index)
        if kind == "invoke":
            self._began[process] = index
        if name not in BROUGHT or kind not in ("invoke", "fail"):
            return
        brought = key, part.strip("[]").split()[-1]
        self._brought[brought] += 1 if kind == "invoke" else -1
        if kind == "fail":
            self._failed[brought] = f"{BROUGHT[name]} by process {process} in events {began}-{index}, recorded as a fail"

    def hint(self, line: str) -> str:
        """Describes the strange part of the answer in this line, if there is one."""
        event = LINE.fullmatch(line)
        if event is None or event[1] != "ok" or event[3] not in ANSWERED:
            return ""
        name, key, values = event[3], int(event[4]), re.findall("-?[0-9]+", event[5])
        if event[5].startswith("#"):  # only the members that no other operation brought in
            values = [value for value in values if self._brought[key, value] == 0]
        hints = (self._hint_of_value(name, key, value) for value in values)
        return "\n".join([hint for hint in hints if hint][:MOST_HINTS])

    def _hint_of_value(self, name: str, key: int, value: str) -> str:
        if (key, value) in self._failed:
            return f"{value} was {self._failed[key, value]}: did it take place? Then it is an info, or the store's fault"
        if self._brought[key, value] > 0 or value == str(ABSENT):
            return ""
        if self.are_new:
            return f"no recorded operation wrote {value}"
        begin = "" if name == "dequeue" else f" monitor.begin({key}, value)"
        return f"no recorded operation wrote {value}: did key {key} hold it before?{begin}"
