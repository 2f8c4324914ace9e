"""Decides which values of a history are one value of the store, and which answers mean that a key is missing, as the user says."""
from __future__ import annotations

import json
import re
from typing import FrozenSet, NamedTuple

from ..edn import Many, Value, canonical, integer, spelling, string
from .numbering import NUMBER

EXACT, TEXT, NUMBERS = "exact", "text", "number"
WAYS = (EXACT, TEXT, NUMBERS)
WORD = re.compile(r"[\w.+-]+")  # a member of a list, whatever quotes, commas and blanks its text has
TRUTH = {"true": "1", "false": "0"}


class Meant(NamedTuple):
    """`exact`: 1, 1.0 and "1" are three values. `text`: values with the same text, without spaces around it, are one value, such as 1 and "
    1", or ["a" 1] and "['a', 1]". `number`: values with the same number are also one value, such as 1, 1.0, "1" and true. The same holds
    for keys. A value whose text is among `absent` is nil.
    """

    values: str = EXACT
    absent: FrozenSet[str] = frozenset()

    @property
    def says_nothing(self) -> bool:
        return self.values == EXACT and not self.absent

    def part(self, name: str, part: Value) -> Value:
        """Returns the operand of an event, in its canonical spelling. A value has the same spelling in a cas and in a write."""
        if isinstance(part, Many) and name == ":cas":
            return Many(part.opened, tuple(map(self.whole, part.members)))
        return self.whole(part)

    def whole(self, value: Value) -> Value:
        """A whole value. A list, a set or a map has only those members that do not mean a missing key."""
        if isinstance(value, Many):
            return Many(value.opened, tuple(map(self.alike, value.members)))
        return self.value(value)

    def value(self, value: Value) -> Value:
        if self.absent and isinstance(value, str) and value != "nil" and text_of(value) in self.absent:
            return "nil"
        return self.alike(value)

    def alike(self, value: Value) -> Value:
        """The value that represents all values that are one with it. A list is represented by its text, and a map or a set by the values
        that represent its members."""
        if self.values == EXACT or value == "nil" or isinstance(value, str) and value.startswith(":"):
            return value
        text = (text_of(value) if isinstance(value, str) else spelling(value)).strip()
        if text.startswith(("[", "(")):
            words = WORD.findall(text)
            return json.dumps(f"[{' '.join(map(number_of, words) if self.values == NUMBERS else words)}]", ensure_ascii=False)
        if not isinstance(value, str):
            return canonical(Many(value.opened, tuple(map(self.alike, value.members))))
        if self.values == NUMBERS:
            text = number_of(text)
        return text if integer(text) is not None and text == str(integer(text)) else json.dumps(text, ensure_ascii=False)


def text_of(value: str) -> str:
    """The text of an atom. A string is without its quotes."""
    return string(value) if value.startswith('"') else value


def number_of(text: str) -> str:
    """One spelling of each number; other atoms keep their text."""
    text = TRUTH.get(text.lower(), text)
    if re.fullmatch(NUMBER, text) is None:
        return text
    import decimal  # loaded here, since loading takes time and is seldom necessary

    try:
        number = decimal.Decimal(text.rstrip("MN"))
    except ArithmeticError:
        return text
    return str(int(number)) if number == number.to_integral_value() and abs(number.adjusted()) < 30 else str(number.normalize())


def spelled(text: str) -> Value:
    """A value that the user names: an integer, or a text, in quotes or without."""
    if integer(text) is not None:
        return str(integer(text))
    if len(text) > 1 and text[0] == text[-1] == '"':
        text = text[1:-1]
    return json.dumps(text, ensure_ascii=False)
