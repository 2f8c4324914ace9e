"""The user's words about the rows of a history: --map, --ignore, --time-unit, --order, --skew, and a mapping file.

A mapping file is an object of JSON. All its members may be left out; docs/FORMATS.md shows them.

    fields       {"db.key": "key", "msg": "type"}        a field, or a path into objects, and the accepted name that it stands for
    ignore       ["level"]                               fields that say nothing of the history
    rows         "resourceSpans[].scopeSpans[].spans[]"  the lists that have the rows
    line         "(?P<client>\\\\S+) (?P<op>\\\\w+) .."        a regular expression: a line of a log that it matches is a row
    columns      ["start", "end", "op"]                  the names of columns of CSV without a heading
    operations   {"PUT": "write"}                        words for operations
    outcomes     {"404": "ok", "LOCK_BUSY": "fail"}      words for types of events and outcomes
    absent       ["-"]                                   cells and texts that hold no value
    time_unit    "ms"                                    the unit of times that are numbers
"""
from __future__ import annotations

import json
import re
from typing import Any, Dict, List, Mapping as Map, NamedTuple, Optional, Pattern, Sequence

from . import Refused
from .vocabulary import ABSENT, MEANINGS, OPERATIONS, TYPES, UNITS, Slot, plain, slot_of

LINES, INDEX, TIMES = ORDERS = ("lines", "index", "times")  # the possible orders of the events
APART, ONE = CLIENTS = ("apart", "one")
MEMBERS = ("fields", "ignore", "rows", "line", "columns", "operations", "outcomes", "absent", "time_unit")


class Mapping(NamedTuple):
    """The user's words about the rows. Names of fields and words are plain."""

    fields: Map[str, Slot] = {}
    ignored: "frozenset[str]" = frozenset()
    rows: Optional[str] = None
    line: Optional[Pattern[str]] = None
    columns: Optional[Sequence[str]] = None
    operations: Map[str, str] = OPERATIONS
    outcomes: Map[str, str] = TYPES
    absent: "frozenset[str]" = frozenset(ABSENT)
    has_absent: bool = False  # whether the user says which cells hold no value
    time_unit: Optional[str] = None
    order: Optional[str] = None
    skew: Optional[str] = None
    clients: Optional[str] = None  # whether clients with one name in several files are one client ("one"), or one client for each file ("apart")
    unfinished: bool = False  # whether the user says that a client does one operation after another
    contradictions: Map[str, str] = {}  # the type that the user gives to an :ok of EDN with the answer false ("false"), or with an :error ("error")

    def with_field(self, words: str) -> Mapping:
        """Adds a field, given as FIELD=NAME."""
        field, equals, name = words.rpartition("=")
        if not (field and equals and name):
            raise Refused(f"--map {words}: it takes FIELD=NAME, such as --map path=key")
        return self._replace(fields={**self.fields, plain(field): slot_named(name, f"--map {words}")})

    def with_ignored(self, field: str) -> Mapping:
        return self._replace(ignored=self.ignored | {plain(field)})


def slot_named(name: str, place: str) -> Slot:
    """The meaning of an accepted name."""
    if name in MEANINGS:
        return slot_of(name) or Slot(name, None, 0)
    slot = slot_of(name)
    if slot is None:
        raise Refused(f"{place}: there is no name {name!r}; names are {', '.join(MEANINGS)}, times also with their unit, such as start_ms")
    return slot


def read(path: str) -> Mapping:
    """Reads the mapping in a file."""
    try:
        with open(path, encoding="utf-8") as file:
            said = json.load(file)
    except OSError as fault:
        raise Refused(f"{path}: {fault.strerror}") from fault
    except ValueError as fault:
        raise Refused(f"{path}: this mapping is not JSON: {fault}") from fault
    try:
        return of(said)
    except Refused as refusal:
        raise Refused(f"{path}: {refusal}") from refusal


def of(said: Any) -> Mapping:
    """Makes the mapping of an object of JSON."""
    if not isinstance(said, dict):
        raise Refused("a mapping is an object")
    for name in said:
        if name not in MEMBERS:
            raise Refused(f"a mapping has no {name!r}; it has {', '.join(MEMBERS)}")
    fields = {plain(field): slot_named(name, f'"fields": {{"{field}": "{name}"}}') for field, name in _words(said, "fields").items()}
    made = Mapping(fields, frozenset(map(plain, _texts(said, "ignore"))), _text(said, "rows"), _pattern(said),
                   _texts(said, "columns") or None, _known(said, "operations", OPERATIONS), _known(said, "outcomes", TYPES))
    unit = _text(said, "time_unit")
    if unit is not None and unit not in UNITS:
        raise Refused(f'"time_unit" is {unit!r}; units are {", ".join(UNITS)}')
    if "absent" in said:
        made = made._replace(absent=frozenset(_texts(said, "absent")) | {""}, has_absent=True)
    return made._replace(time_unit=unit)


def _words(said: Dict[str, Any], name: str) -> Dict[str, str]:
    found = said.get(name, {})
    if not isinstance(found, dict) or not all(isinstance(word, str) for word in found.values()):
        raise Refused(f'"{name}" is not an object of texts')
    return found


def _texts(said: Dict[str, Any], name: str) -> List[str]:
    found = said.get(name, [])
    if not isinstance(found, list) or not all(isinstance(word, str) for word in found):
        raise Refused(f'"{name}" is not a list of texts')
    return found


def _text(said: Dict[str, Any], name: str) -> Optional[str]:
    found = said.get(name)
    if found is not None and not isinstance(found, str):
        raise Refused(f'"{name}" is not a text')
    return found


def _known(said: Dict[str, Any], name: str, known: Map[str, str]) -> Map[str, str]:
    """Returns the known words, and the words that the user adds."""
    added = _words(said, name)
    for word, meaning in added.items():
        if meaning not in set(known.values()):
            raise Refused(f'"{name}": {{"{word}": "{meaning}"}}: it is none of {", ".join(dict.fromkeys(known.values()))}')
    return {**known, **{plain(word): meaning for word, meaning in added.items()}} if added else known


def _pattern(said: Dict[str, Any]) -> Optional[Pattern[str]]:
    text = _text(said, "line")
    if text is None:
        return None
    try:
        pattern = re.compile(text)
    except re.error as fault:
        raise Refused(f'"line" is not a regular expression: {fault}') from fault
    if not pattern.groupindex:
        raise Refused('"line" has no named groups, such as (?P<client>..), and these are the fields of a row')
    return pattern
