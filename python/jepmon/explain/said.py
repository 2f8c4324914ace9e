"""The notes on the last line of a check."""
from __future__ import annotations

from typing import Iterator

from ..history.names import Names
from .event import Options, Shower, events_of
from .refusal import of_refusal
from .unreadable import of_unreadable
from .verdict import of_legal, of_verdict


def said(reply: str, raw: bytes, options: Options) -> Iterator[str]:
    """The notes on this last line of a check of these bytes."""
    words = reply.split()
    if words[:1] == ["refused"] and words[2:3] == ["Unreadable"]:
        yield from of_unreadable(raw, int(words[3]))
        return
    if words[:1] == ["refused"] and "event" not in words or not words:
        return
    text = raw.decode("utf-8", "replace")
    events = events_of(text)
    if words[0] == "legal":
        yield from of_legal(events)
        return
    shower = Shower(options.concurrency, Names.read(text))
    if words[0] == "refused":
        yield from of_refusal(int(words[1]), events, int(words[4]), options, shower)
    else:
        yield from of_verdict(words[0], events, int(words[2]), int(words[4]), options, shower)
