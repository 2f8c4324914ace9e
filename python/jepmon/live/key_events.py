"""The events of each key in a live test: its last events, its operations, and their outcomes."""
from __future__ import annotations

import collections
from typing import Counter, Deque, Dict, Optional, Set, Tuple

from .sources import Sources
from .values import readable

LAST_EVENTS = 16  # of a key, in the text of an exception


class Told:
    """Learns each recorded event; the caller has a lock."""

    def __init__(self) -> None:
        self.sources = Sources()
        self._events: Dict[int, Deque[Tuple[int, int, str]]] = {}  # the last events of each key: index, process and text
        self._names: Dict[int, Set[str]] = {}  # the names of the operations of each key, without the write that begins the key
        self._outcomes: Counter[Tuple[int, str, str]] = collections.Counter()  # the number of operations, by key, operation and outcome
        self._pending: Counter[int] = collections.Counter()  # operations of each key that are open
        self._timeouts: Counter[int] = collections.Counter()  # operations of each key that timed out; reads do not count

    # --- Events ---

    def tell(self, kind: str, process: int, name: str, key: int, part: str, index: int, line: str) -> None:
        events = self._events.get(key)
        if events is None:
            events = self._events[key] = collections.deque(maxlen=LAST_EVENTS)
        events.append((index, process, line))
        self.sources.tell(kind, process, name, key, part, index)

    def replace(self, key: int, index: int, line: str) -> None:
        """Replaces the event of this index, since another event was sent instead."""
        events = self._events[key]
        for place, (at, process, _) in enumerate(events):
            if at == index:
                events[place] = index, process, line

    def forget(self, key: int, process: int) -> None:
        """Removes a failed operation from the events that are shown, since it explains nothing."""
        events = self._events[key]
        for event in [event for event in events if event[1] == process][-2:]:
            events.remove(event)

    def last_events(self, key: Optional[int], index: int) -> Tuple[str, ...]:
        """The last events of the key up to this index, each a line for people. The event of this index is marked."""
        events = self._events.get(key, ()) if key is not None else ()
        return tuple(readable(f"  {at} {'<--' if at == index else '   '} {line}") for at, _, line in events if at <= index)

    # --- Operations ---

    def begin(self, key: int, name: str) -> None:
        self._names.setdefault(key, set()).add(name)
        self._pending[key] += 1

    def end(self, key: int, name: str, outcome: str) -> None:
        self._outcomes[key, name, outcome] += 1
        self._pending[key] -= 1
        if outcome == "info" and name != "read":
            self._timeouts[key] += 1

    def names(self, key: int) -> Set[str]:
        return self._names.get(key, set())

    def ended(self, key: int, name: str, outcome: str) -> int:
        """The number of operations of the key with this name and this outcome."""
        return self._outcomes[key, name, outcome]

    def timeouts(self, key: int) -> int:
        """The number of operations of the key that ended as :info and may yet take place. Reads do not count."""
        return self._timeouts[key]

    def pending(self, key: int) -> int:
        """Returns the number of open operations of the key."""
        return self._pending[key]

    def counts(self) -> Dict[str, Counter[str]]:
        """Returns the number of operations by name and outcome."""
        counts: Dict[str, Counter[str]] = {}
        for (_, name, outcome), count in self._outcomes.items():
            counts.setdefault(name, collections.Counter())[outcome] += count
        return counts
