"""The meaning of numbers in a history whose keys or values were numbered, as its own comments say.

A history in jepmon's form has only integers. A tool that converts other keys and values numbers them, and writes comments, one in each
line: `; key 0 is :x`, `; value 3 is "blue"`. By these comments, texts for people show the original keys and values.
"""
from __future__ import annotations

import re
from typing import Dict, Iterator, Mapping, Optional

from ..tools.command import printable
from . import kinds

COMMENT = r"^; (key|value) ([+-]?[0-9]{1,20}) is ([^\n\r]*)"
IN_EVENT = r"(:value \[)([+-]?[0-9]+)(\s[^\]]*)"
NUMBER = r"(?<![\w.+-])[+-]?[0-9]+(?![\w.])"
MOST = 400  # at most this many characters of a name are written
ABSENT = "ABSENT"  # the name of a missing key


class Names:
    """The names of numbered keys and values. A number without a name stands for itself."""

    def __init__(self, keys: Optional[Mapping[int, str]] = None, values: Optional[Mapping[int, str]] = None) -> None:
        self.keys: Dict[int, str] = dict(keys or {})
        self.values: Dict[int, str] = {kinds.ABSENT: ABSENT, **(values or {})}

    @classmethod
    def read(cls, text: str) -> Names:
        """Reads the names in the comments of a history."""
        names = cls()
        for what, number, name in re.findall(COMMENT, text, re.M):
            (names.keys if what == "key" else names.values)[int(number)] = name
        return names

    def comments(self) -> Iterator[str]:
        """Returns the comment lines that have the names."""
        for what, names in (("key", self.keys), ("value", self.values)):
            for number, name in names.items():
                if (number, name) != (kinds.ABSENT, ABSENT):
                    yield f"; {what} {number} is {printable(name)[:MOST]}\n"

    def key(self, number: int) -> str:
        return self.keys.get(number, str(number))

    def value(self, number: int) -> str:
        return self.values.get(number, str(number))

    def event(self, text: str) -> str:
        """Replaces the key and the values in the text of an event by their names."""
        return re.sub(IN_EVENT, lambda found: found[1] + self.key(int(found[2])) + self.part(found[3]), text)

    def part(self, text: str) -> str:
        """Replaces the integers in a text by the names of these values."""
        return re.sub(NUMBER, lambda found: self.value(int(found[0])), text)
