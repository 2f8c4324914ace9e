"""Keys for a test with faults: after some timeouts of a key, writes go to another key, and reads stay."""
from __future__ import annotations

import random
import threading
from typing import TYPE_CHECKING, List, Optional

from ..history.kinds import KEYS
from .room import BY_ENDS, Room
from .values import key_of

if TYPE_CHECKING:
    from .monitor import Monitor

TRIES = 8  # at most this many keys are drawn to find one that has room


class Keys:
    """The keys that a test writes to, and those that it reads; Monitor.keys makes it. Any number of threads may use it.

    A write that timed out may take place at any later moment, so each one adds possible outcomes to the key, until they exceed its budget.
    So writes leave a key after `limit` timed-out operations, and a new key replaces it. **Reads must stay.** A fault that loses data, such
    as the kill of a server that keeps nothing, makes requests to each key time out. A test that leaves these keys never reads the lost
    values again, and passes. So read at read_key, which also gives keys that writes have left, and read all of `used` at the end.

    A key has room for another operation if fewer than `most` of its operations are open, or if none is open. A key without room is returned
    only if there is no other.

    The numbers `limit` and `most` depend on the kind of the keys: 8 and 10 for registers; 8 and 8 with compare and set; no limit and 64 for
    sets; 8 and 64 for queues. For keys that are judged by ends the numbers are 3 and 6, and for locks 8 and 12. In locks, and by ends,
    operations that have timed out count as open.

    Use queues in the same way: enqueue at write_key, and dequeue at read_key. Each operation of a lock is a change: acquire at write_key,
    so that clients again try to acquire a lock that was held when its server died.
    """

    def __init__(self, monitor: Monitor, count: int = 1, limit: Optional[int] = None, first: int = 0, most: Optional[int] = None,
                 room: Room = BY_ENDS) -> None:
        if count < 1 or not (limit is None or limit >= 1) or not (most is None or most >= 1):
            raise ValueError(f"count, limit and most are numbers from 1 on, not {count}, {limit} and {most}")
        key_of(first)
        key_of(first + count - 1)
        self._room, self._room_by_ends = (each._replace(timeouts=each.timeouts if limit is None else limit, most=each.most if most is None else most)
                                          for each in (room, BY_ENDS))
        self._monitor, self._first = monitor, first
        self._lock = threading.Lock()
        self._draws = random.Random(first)  # used if the caller has no random numbers of its own
        self._open = list(range(first, first + count))  # the keys that are open to writes
        self._left: List[int] = []
        self._next = first + count

    def write_key(self, draws: Optional[random.Random] = None) -> int:
        """One of the `count` keys that are open to writes."""
        with self._lock:
            for place, key in enumerate(self._open):
                if key in self._monitor.set_aside or self._room_of(key).is_left(self._monitor.timeouts(key)):
                    self._leave(place)
            return self._drawn(self._open, draws or self._draws)

    def read_key(self, draws: Optional[random.Random] = None) -> int:
        """Any key that was ever used: half the time a key that is open to writes, otherwise a key that writes have left, if there is one. A
        key that the monitor has dropped is no longer judged, and is returned only if there is no other."""
        drawn = draws or self._draws
        with self._lock:
            still_open, left = self._judged(self._open), self._judged(self._left)
            return self._drawn(left if left and drawn.random() < 0.5 else still_open or left or self._open, drawn)

    @property
    def used(self) -> List[int]:
        """Each key that was ever open to writes: read them all at the end of the test, when its faults are over."""
        with self._lock:
            return sorted(self._left + self._open)

    def _drawn(self, keys: List[int], draws: random.Random) -> int:
        """One of the keys, with room if possible."""
        for _ in range(TRIES):
            key = keys[draws.randrange(len(keys))]
            if self._room_of(key).holds(self._monitor.pending(key), self._monitor.timeouts(key)):
                return key
        return min(keys, key=lambda key: self._room_of(key).at_once(self._monitor.pending(key), self._monitor.timeouts(key)))

    def _room_of(self, key: int) -> Room:
        return self._room_by_ends if key in self._monitor.equal_values else self._room

    def _judged(self, keys: List[int]) -> List[int]:
        dropped = self._monitor.set_aside
        return [key for key in keys if key not in dropped] if dropped else keys

    def _leave(self, place: int) -> None:
        if self._next not in KEYS:
            raise ValueError(f"each key from {self._first} to {KEYS.stop - 1} has had {self._room.timeouts} timeouts: there is no new key left")
        self._left.append(self._open[place])
        self._open[place] = self._next
        self._next += 1
