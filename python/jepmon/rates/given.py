"""The data of a page of rates: plain data about one run, or one recorded history."""
from __future__ import annotations

from typing import NamedTuple, Sequence, Tuple

from .gathered import Gathered
from .history import Fault, Key


class KeyRow(NamedTuple):
    """A row of the table of keys: a key, or the object of this key. `link` leads to its own page, if it has one."""

    name: str
    part: str
    status: str  # "legal", "illegal at event 12", ..
    counts: Key
    link: str = ""


class Section(NamedTuple):
    """A text that the page shows unchanged."""

    title: str
    text: str


class RatesPage(NamedTuple):
    """All that a page of rates shows. `verdict` begins with the word of its badge; `facts` are names and values; `links` are names and
    addresses beside the page; `notes` say what the page does not show."""

    verdict: str
    gathered: Gathered
    faults: Sequence[Fault] = ()
    keys: Sequence[KeyRow] = ()
    facts: Sequence[Tuple[str, str]] = ()
    command: str = ""
    links: Sequence[Tuple[str, str]] = ()
    sections: Sequence[Section] = ()
    notes: Sequence[str] = ()
