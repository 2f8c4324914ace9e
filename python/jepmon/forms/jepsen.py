"""The notes on a history in Jepsen's form, or on a history that was converted into this form. A history has them in addition to its
events."""
from __future__ import annotations

from typing import Iterator

from ..from_jepsen import Turned
from ..from_jepsen.notes import clients_of


def notes_of(found: Turned) -> Iterator[str]:
    """Notes the parts of the history that were skipped or changed."""
    history = found.history
    yield from clients_of(history.clients)
    yield from (f"{note}: {count}" for note, count in history.notes.items())
    if history.drained:
        yield "the values of a :drain have no order: a queue with drains is judged as an unordered-queue, not as a fifo-queue"
    if found.begun:
        yield f"a missing key is a value, and a write of it comes first for each register: {found.begun} events"
