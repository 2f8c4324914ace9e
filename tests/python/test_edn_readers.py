"""The reader of all tools, with the profile of the program, takes exactly the same texts as the reader of shards. Both give the same
values."""
from __future__ import annotations

import pathlib
import random
import unittest
from typing import Any, List, Optional

from jepmon import edn
from jepmon.edn import Many, Value
from jepmon.shards import reading

from . import TOP

COUNT = 3_000
TOKENS = ("{", "}", "[", "]", "#{", "#_", "(", ")", " ", " ", "\n", ",", "; c\n", ";", ":a", ":type", ":f-2?", ":a/b", ":", "nil", "true", "false",
          "truex", "0", "-0", "+7", "7", "07", "-7", "7N", "1.5", "9223372036854775807", "9223372036854775808", "-9223372036854775808",
          "000", '"a"', '"\\n"', '"\n"', '"\\u"', '"é"', '"', "\\a", "#t", "x", "\u00a0", "\x0c", "'", "{:a 1}", "{:a 1 :a 2}", "{:a 1, :b}",
          "#{1 2}", "#{1 +1}", "#{[1] [1]}", '#{"a" :a}', "[1 [2 [3]]]", "{:value [7 #{}]}", "#_ #_ 1 2", "#_")
DEEP = ("[" * 32 + "]" * 32, "[" * 33 + "]" * 33, "{:a " * 32 + "1" + "}" * 32, "#_ " * 300 + "1 " * 300)


def tagged(value: Value, at_top: bool = False) -> Any:
    """The value as reading.py has it; it keeps nothing of a vector at the top."""
    if isinstance(value, Many):
        members = [tagged(member) for member in value.members]
        if value.opened == "[":
            return "vector", () if at_top else tuple(members)
        return ("map", frozenset(zip(members[0::2], members[1::2]))) if value.opened == "{" else ("set", frozenset(members))
    if value.startswith('"'):
        return "string", edn.string(value).encode()
    if value.startswith(":"):
        return "keyword", value[1:].encode()
    number = edn.integer(value)
    return number if number is not None else {"nil": None, "true": ("bool", True), "false": ("bool", False)}[value]


def by_edn(text: str) -> Optional[List[Any]]:
    """The values that edn.py reads; None if it refuses."""
    try:
        return [tagged(element.value, at_top=True) for element in edn.Reader(text, profile=True).elements()]
    except edn.Unreadable:
        return None


def by_reading(text: str) -> Optional[List[Any]]:
    try:
        return list(reading.Reader(text.encode()).elements())
    except reading.Unreadable:
        return None


class Readers(unittest.TestCase):
    def assert_same(self, text: str) -> bool:
        read = by_edn(text)
        self.assertEqual(read, by_reading(text), repr(text))
        return read is not None

    def test_texts_of_tokens(self) -> None:
        chance, taken = random.Random(11), 0
        for _ in range(COUNT):
            taken += self.assert_same("".join(chance.choice(TOKENS) for _ in range(chance.randrange(1, 9))))
        self.assertGreater(taken, COUNT // 20)
        self.assertLess(taken, COUNT)

    def test_deep_texts(self) -> None:
        self.assertEqual([self.assert_same(text) for text in DEEP], [True, False, True, True])

    def test_histories(self) -> None:
        """The examples, and the histories of the black-box cases and of the samples, each also cut off and with one token more."""
        chance, taken = random.Random(12), 0
        for path in histories():
            text = path.read_bytes().decode("utf-8", "replace").replace("\ufffd", "?")[:20_000]
            with self.subTest(path=path):
                taken += self.assert_same(text)
                at = chance.randrange(len(text) + 1)
                self.assert_same(text[:at])
                self.assert_same(text[:at] + chance.choice(TOKENS) + text[at:])
        self.assertGreater(taken, 30)


def histories() -> List[pathlib.Path]:
    folders = ("examples", "tests/cases", "tests/judge", "tests/samples", "tests/explain")
    return sorted(path for folder in folders for path in (TOP / folder).rglob("*")
                  if path.is_file() and path.suffix in (".edn", "") and path.name not in ("args", "stdout", "stderr", "status"))[:400]


if __name__ == "__main__":
    unittest.main()
