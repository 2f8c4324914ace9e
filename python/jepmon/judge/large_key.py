"""The events of the bad key of a history that was judged by shards, with the fields of the history's lines."""
from __future__ import annotations

import re
from typing import Dict, Iterable, Iterator, List, Sequence, Tuple

from .. import edn, history
from ..history import Event
from ..history.line import event_line, part_of_text
from ..shards.session import KeyEvent, Session

OWN_FIELDS = 6  # colons before a word in an event without further fields


def events_of(session: Session, keys: Sequence[int], texts: Iterable[str]) -> Dict[int, List[Event]]:
    """The events of each key, as far as they are judged. They have their lines and further fields, if the texts of the history have one
    event in each line."""
    events = {key: [event_of(each, key) for each in found] for key, found in session.events_of_keys(keys)}
    found = dict(lines_of(texts, keys, {event.index for of_key in events.values() for event in of_key}))
    return {key: [told(event, *found[event.index]) if event.index in found else event for event in of_key]
            for key, of_key in events.items()}


def event_of(found: KeyEvent, key: int) -> Event:
    text = event_line(found.kind, found.process, found.name, key, found.part)
    return Event(found.place, found.kind, found.process, found.name, key, part_of_text(found.part), 0, text, {})


def told(event: Event, number: int, line: str) -> Event:
    """The event with the fields of its line."""
    if line.count(" :") + line.count("{:") <= OWN_FIELDS:
        return event._replace(line=number)
    element = next(edn.Reader(line).elements(), None)
    fields = edn.fields_of(element.value) if element is not None else None
    return event._replace(line=number, text=" ".join(line.split()), fields=history.further(fields or {}))


def lines_of(texts: Iterable[str], keys: Sequence[int], indices: "set[int]") -> Iterator[Tuple[int, Tuple[int, str]]]:
    """The number and the text of each line with an event of these keys at these indices, if each event is a line."""
    wanted = re.compile(rf":value \[(?:{'|'.join(map(str, keys))}) ")
    index, number = -1, 1
    for text in texts:
        if wanted.search(text) is not None:
            at = index
            for place, line in enumerate(text.split("\n"), number):
                at += line.startswith("{")
                if at in indices and line.startswith("{") and wanted.search(line):
                    yield at, (place, line)
        number += text.count("\n")
        index += text.count("\n{") + text.startswith("{")


def front_lines(path: str, events: int) -> bytes:
    """The first lines of a file, up to this number of lines that begin like an event."""
    lines: List[bytes] = []
    with open(path, "rb") as file:
        for line in file:
            lines.append(line)
            events -= line.startswith(b"{")
            if events == 0:
                break
    return b"".join(lines)
