"""The failed states of a search. A state that is no better than a failed state fails too: it has the same tasks, and no more
possibilities."""
from __future__ import annotations

from typing import Dict, List, Optional, Set, Tuple

MOST = 128  # at most this many states of one event and value are compared
HELD = 1 << 20  # at most this many states are kept; a forgotten state may be tried again
Key = Tuple[int, Optional[int]]  # the event, and the value of the register


class Failed:
    """A state has its event, its value, and two sets of open operations, as bits: the operations for which it could not be better, and the
    operations that have taken place. A state with a write that may be hidden is better than a state in which the write has taken place, or
    still must take place. A state is also better if a read has its answer, and if a timed-out operation may still take place."""

    def __init__(self) -> None:
        self._every: Set[Tuple[Key, int, int]] = set()
        self._latest: Dict[Key, List[Tuple[int, int]]] = {}

    def __contains__(self, state: Tuple[Key, int, int]) -> bool:
        if state in self._every:
            return True
        key, best, taken = state
        return any(not best & ~other and not (taken ^ had) & ~other for other, had in self._latest.get(key, ()))

    def add(self, state: Tuple[Key, int, int]) -> None:
        if len(self._every) >= HELD:
            self._every.clear()
            self._latest.clear()
        self._every.add(state)
        latest = self._latest.setdefault(state[0], [])
        latest.append(state[1:])
        if len(latest) > MOST:
            del latest[:MOST // 2]
