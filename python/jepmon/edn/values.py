"""Values of EDN, and functions on them. An atom is its own spelling, and a collection is a Many."""
from __future__ import annotations

import re
from typing import Any, Dict, NamedTuple, Optional, Sequence, Tuple, Union

CLOSING = {"{": "}", "[": "]", "(": ")", "#{": "}"}
NUMERIC = frozenset("+-0123456789")  # the first characters of numbers
DIGITS = frozenset("123456789")  # an integer that begins with one of these has no other spelling
INTEGER = re.compile(r"[+-]?[0-9]{1,1000}N?")
ATOMS = {str}
ESCAPES = {"t": "\t", "r": "\r", "n": "\n"}


class Many(NamedTuple):
    """A collection: its opening bracket, and its members in order. A map has a key, its value, the next key, and so on."""

    opened: str
    members: Tuple[Any, ...]


Value = Union[str, Many]


def spelling(value: Value) -> str:
    """The value's text, with one space between members."""
    if isinstance(value, str):
        return value
    return value.opened + " ".join(map(spelling, value.members)) + CLOSING[value.opened]


def shown(value: Value, most: int = 160) -> str:
    """The value's text, on one line, cut after `most` characters."""
    text = spelling(value).replace("\n", "\\n")
    return text if len(text) <= most else text[:most] + " .."


def canonical(value: Value) -> Value:
    """The value in a form in which values that EDN calls equal are equal: sets and maps in one order, lists as vectors, 1N and +1 as 1."""
    if isinstance(value, str):
        if value[0] not in NUMERIC or value[0] in DIGITS and value.isdecimal() and value.isascii():  # as most are
            return value
        number = integer(value)
        return value if number is None else str(number)
    members = [canonical(member) for member in value.members]
    if value.opened == "#{":
        members.sort(key=spelling)
    if value.opened == "{":
        pairs = sorted(zip(members[0::2], members[1::2]), key=lambda pair: spelling(pair[0]))
        members = [member for pair in pairs for member in pair]
    return Many("[" if value.opened == "(" else value.opened, tuple(members))


def has_twice(values: Sequence[Value]) -> bool:
    """Whether two of the values are equal, as the program compares them."""
    if all(isinstance(value, str) and value.startswith(":") for value in values):
        return len(set(values)) < len(values)
    return len(set(map(comparable, values))) < len(values)


def comparable(value: Value) -> Value:
    """The canonical value, in which strings are without escapes."""
    if isinstance(value, str):
        return '"' + string(value) if value.startswith('"') else canonical(value)
    return canonical(Many(value.opened, tuple(comparable(member) for member in value.members)))


def string(text: str) -> str:
    """The content of a string of the profile, which is in quotes."""
    return re.sub(r"\\(.)", lambda escape: ESCAPES.get(escape[1], escape[1]), text[1:-1], flags=re.S)


def fields_of(value: Value) -> Optional[Dict[str, Value]]:
    """The fields of a map whose keys are keywords or other atoms. None for anything else."""
    if not isinstance(value, Many) or value.opened != "{":
        return None
    members = iter(value.members)
    fields: Dict[str, Value] = dict(zip(members, members))
    if set(map(type, fields)) <= ATOMS:  # as nearly all are
        return fields
    return {key: field for key, field in fields.items() if isinstance(key, str)}


def integer(value: Optional[Value]) -> Optional[int]:
    """The integer that the value spells, with or without the suffix N. None for any other value, and for more than a thousand digits."""
    if not isinstance(value, str):
        return None
    if len(value) < 20 and value.isdecimal() and value.isascii():  # as most are
        return int(value)
    return int(value.rstrip("N")) if value[:1] in NUMERIC and INTEGER.fullmatch(value) else None


def keyword(value: Optional[Value]) -> Optional[str]:
    """The text of a keyword without its colon."""
    return value[1:] if isinstance(value, str) and value.startswith(":") else None
