"""The exact reader of a history: from its beginning, event by event, to the first refused event.

It is used if the quick reader is in doubt: something is refused, or an event is not one line. It gives the line that `jepmon check` prints
for a refusal, or says that there is none.
"""
from __future__ import annotations

import mmap
from typing import BinaryIO, Iterator, Optional, Union

from ..forms.account import Account
from ..forms.own import GAP
from .events import NAMES_OF_REFUSALS, PLAIN, Event, Refusal, Rule, event_of, plain_event
from .reading import Reader, Unreadable

Entry = Union[Event, Refusal]


def entries_of(reader: Reader, account: Account) -> Iterator[Entry]:
    """Yields for each element of a text an event, or the refusal of the element."""
    line, counted = 1, 0
    while reader.more():
        begin = reader.at
        match = PLAIN.match(reader.data, reader.at)
        try:
            if match is not None:
                reader.at = reader.good = match.end()
                entry: Entry = plain_event(match)
            else:
                entry = event_of(reader.element(0, 0))
        except Refusal as refusal:
            entry = refusal
        first = line + reader.data[counted:begin].count(b"\n")
        line, counted = first + reader.data[begin:reader.at].count(b"\n"), reader.at
        account.took(first, line)
        yield entry
    end = len(reader.data)
    lines = line + reader.data[counted:end].count(b"\n") - (reader.data[end - 1:end] == b"\n")
    account.skip(GAP, lines - account.taken)
    account.close(lines)


def first_refusal(path: str, concurrency: int, plainly: Optional[BinaryIO] = None, account: Optional[Account] = None) -> Optional[str]:
    """The line of the first refusal of a file, as `jepmon check` prints it. None if nothing is refused; then all lines are in the account.
    Writes each event before the refusal plainly to the other file, one in each line."""
    with open(path, "rb") as file:
        if file.seek(0, 2) == 0:
            return None
        with mmap.mmap(file.fileno(), 0, access=mmap.ACCESS_READ) as data:
            return _first_refusal(Reader(data), Rule(concurrency), plainly, account or Account())


def _first_refusal(reader: Reader, rule: Rule, plainly: Optional[BinaryIO], account: Account) -> Optional[str]:
    refused: Optional[str] = None
    try:
        for entry in entries_of(reader, account):
            if refused is not None:  # the text may be unreadable later, and this is reported before the refusal of any event
                continue
            try:
                if isinstance(entry, Refusal):
                    raise entry
                rule.take(entry)
                if plainly is not None:
                    plainly.write(entry.text() + b"\n")
            except Refusal as refusal:
                refused = f"refused {refusal.number} {NAMES_OF_REFUSALS[refusal.number]} event {rule.length}"
    except Unreadable as unreadable:
        return f"refused 11 Unreadable {unreadable.place}"
    return refused
