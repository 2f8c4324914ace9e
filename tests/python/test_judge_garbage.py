"""Whatever a file holds, it is turned or refused by name: nothing else is raised."""
from __future__ import annotations

import io
import os
import random
import unittest
from typing import List

from jepmon.forms import Refused
from jepmon.forms.files import Source
from jepmon.forms.recorded import Options, recorded
from jepmon.judge import models

from . import TOP

COUNT = int(os.environ.get("GARBAGE", "300"))  # histories that are tried
PIECES = (b"{", b"}", b"[", b"]", b"(", b")", b'"', b"\\", b"#", b"#_", b"#{", b":", b",", b";", b"\n", b"\t", b" ", b"nil", b"null", b"-1",
          b"1e9", b"NaN", b"99999999999999999999", b":process", b'"process"', b":nemesis", b"\xff", b"\xc3\xa9", b"\0", b"true", b"^", b"@")


def inputs() -> List[bytes]:
    """The histories of the black-box cases."""
    told = ("args", "stdout", "stderr", "status", "tool", "make.py")
    files = [path for path in (TOP / "tests" / "judge").rglob("*") if path.is_file() and path.name not in told]
    return [path.read_bytes() for path in sorted(files)] + [path.read_bytes() for path in sorted((TOP / "examples").glob("*.edn"))]


def changed(draw: random.Random, raw: bytes) -> bytes:
    """The bytes with some of them out, twice, elsewhere, or others in their place."""
    for _ in range(draw.randrange(1, 4)):
        if not raw:
            return draw.choice(PIECES)
        at, length = draw.randrange(len(raw)), draw.choice((1, 1, 2, 5, 20, 100))
        how = draw.randrange(5)
        if how == 0:
            raw = raw[:at] + raw[at + length:]
        elif how == 1:
            raw = raw[:at]
        elif how == 2:
            other = draw.randrange(len(raw))
            raw = raw[:at] + raw[other:other + length] + raw[at:]
        else:
            raw = raw[:at] + draw.choice(PIECES) + raw[at + (how == 4):]
    return raw


class Garbage(unittest.TestCase):
    def test_changed_histories(self) -> None:
        draw, texts, judged = random.Random(int(os.environ.get("SEED", "7"))), inputs(), 0
        for number in range(COUNT):
            raw = changed(draw, draw.choice(texts))
            with self.subTest(number=number, raw=raw[:300]):
                try:
                    found = recorded(Source("a file", None, lambda: io.BytesIO(raw)), Options(draw.choice((None, None, "3")), draw.random() < 0.2))
                    models.chosen(found.facts, None, found.stated, found.possible)
                    self.assertEqual(len(found.lines), found.facts.events)
                    judged += 1
                except Refused as refusal:
                    self.assertNotIn("\n", str(refusal))
                    self.assertLess(len(str(refusal)), 600)
        self.assertGreater(judged, COUNT // 40)


if __name__ == "__main__":
    unittest.main()
