"""The events of a shard by their keys. If a key has too many events for one check, this module keeps the first events. It tests the later
events itself, since no program sees them."""
from __future__ import annotations

import functools
from typing import Any, Callable, Dict, Iterable, List, Sequence, Tuple

from .doubt import Doubt
from .events import Event, Refusal, is_completion_of, tested
from .lines import of_code
from .reading import Reader, Unreadable
from .routing import Source, segments_of

FIELDS = 3  # the fields of an event of a key: operand, code and place
KNOWN = 1 << 12  # at most this many events are remembered, since most events occur again and again

Events = List[Any]  # for each event, one after another: its operand, code and place


class KeysEvents(Dict[bytes, Callable[[Tuple[bytes, int, int]], None]]):
    """Takes the events of keys: for each key a function that takes the part, the code and the place of its next event."""

    def __init__(self) -> None:
        super().__init__()
        self.of_key: Dict[bytes, Events] = {}

    def __missing__(self, key: bytes) -> Callable[[Tuple[bytes, int, int]], None]:
        events = self.of_key[key] = []
        put = self[key] = events.extend
        return put


class Rest:
    """Tests the events of one key that the program does not see, in the same way as the program. Raises a Doubt if an event is refused."""

    def __init__(self) -> None:
        self.count = 0
        self._open: Dict[int, Event] = {}  # the open operation of each process

    def take(self, events: Sequence[Any]) -> None:
        for part, code in zip(events[0::FIELDS], events[1::FIELDS]):
            kind, process, name = of_code(code)
            event = event_of(kind, process, name, part)
            if kind == b"invoke":
                if process in self._open:
                    raise Doubt
                self._open[process] = event
            elif process not in self._open or not is_completion_of(self._open.pop(process), event):
                raise Doubt
        self.count += len(events) // FIELDS


@functools.lru_cache(maxsize=KNOWN)
def event_of(kind: bytes, process: int, name: bytes, part: bytes) -> Event:
    """An event of any key. Raises a Doubt if its part is invalid."""
    try:
        elements = list(Reader(part).elements())
        if len(elements) != 1:
            raise Doubt
        return tested(None, kind, process, name, 0, elements[0])
    except (Unreadable, Refusal):
        raise Doubt from None


def events_of(sources: Sequence[Source], shard: int, most: int) -> Tuple[Dict[bytes, Events], Dict[bytes, Rest]]:
    """The events of each key of a shard, and the tester for each key with more than `most` events. Such a key keeps `most` + 1 events."""
    keys = KeysEvents()
    rests: Dict[bytes, Rest] = {}
    count = 0
    for segment in segments_of(sources, shard):
        places: Iterable[int] = map(segment.base.__add__, segment.places) if segment.base else segment.places
        for key, part, code, place in zip(segment.keys, segment.parts, segment.codes, places):
            keys[key]((part, code, place))
        count += len(segment.keys)
        if count > most:
            for key, events in keys.of_key.items():
                if len(events) > FIELDS * (most + 1):
                    test_rest(events, rests.setdefault(key, Rest()), most)
    return keys.of_key, rests


def test_rest(events: Events, rest: Rest, most: int) -> None:
    """Tests the new events of a key with many events, and drops those that are not kept."""
    rest.take(events[FIELDS * (most + 1):] if rest.count else events)
    del events[FIELDS * (most + 1):]
