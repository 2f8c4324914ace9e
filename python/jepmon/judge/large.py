"""Histories that are judged by shards (jepmon.shards): because the user asks for it, or because they exceed the limits of one check."""
from __future__ import annotations

import os
import re
from typing import Iterator, NamedTuple, Optional

from ..forms import Refused, door, own
from ..forms.door import Translation
from ..forms.files import Source
from ..history import kinds
from ..shards.source import History
from .words import Given

SHORTEST = 40  # an event has at least this many bytes
PACKED = 100  # gzip makes an event at most this many times shorter
WIDE_KEY = re.compile(r":value \[([0-9]{5,18}) ")
TOO_MANY = f"more than {kinds.EVENTS:,} events, which are too many for one check"


class Large(NamedTuple):
    """A history that is judged by shards."""

    source: Source
    made: Optional[Translation]  # the converted history; None if it is in jepmon's own form
    reason: str  # the reason for shards, if the user did not ask for them

    @property
    def name(self) -> str:
        return self.source.name

    @property
    def path(self) -> Optional[str]:
        """The file that is the text of the history, byte for byte."""
        return self.source.path if self.source.is_plain else None

    @property
    def history(self) -> History:
        """The source of the shards, if it is in jepmon's own form."""
        return self.path if self.path is not None else self.source.texts()

    def texts(self) -> Iterator[str]:
        """Yields the texts of the file, up to the first bytes that are not UTF-8. Such bytes may be in comments."""
        try:
            yield from self.source.texts()
        except Refused:
            return


def is_asked(given: Given) -> bool:
    """Whether the command line asks for shards."""
    return given.jobs is not None or given.dask is not None or (given.concurrency or 0) > kinds.THREADS


def asked(source: Source, given: Given) -> Large:
    """Returns the history, for shards."""
    form = door.form_of(source, given.said)
    return Large(source, None if form == door.OWN else door.translated(source, form, given.said), "")


def of_jepsen(source: Source, given: Given) -> Large:
    """Returns the history for shards if it is not in jepmon's own form after all."""
    return Large(source, door.translated(source, door.JEPSEN, given.said), "")


def reason_of_own(source: Source) -> Optional[str]:
    """Says why one check can't judge a history in jepmon's own form. None if it may be able to."""
    return TOO_MANY if has_too_many(source) else None


def has_too_many(source: Source) -> bool:
    """Returns whether a text has too many lines that begin like an event for one check."""
    if source.path is not None and os.path.getsize(source.path) < kinds.EVENTS * SHORTEST // (1 if source.is_plain else PACKED):
        return False
    count = 0
    for piece in source.texts():
        count += piece.count("\n{") + piece.startswith("{")
        if count > kinds.EVENTS:
            return True
    return False


def refuse_commands(text: str) -> None:
    """Refuses a history in jepmon's own form that has a command between its events."""
    found = own.COMMAND_LINE.search(text)
    if found is not None:
        line = text.count("\n", 0, found.start()) + 1
        raise Refused(f"line {line}: {found.group().strip()} is a command of jepmon script, and shards accept only events: leave --jobs out")


def has_wide_key(text: str) -> bool:
    """Returns whether a text in jepmon's own form has a key that only shards accept."""
    return any(int(key) not in kinds.KEYS for key in WIDE_KEY.findall(text))
