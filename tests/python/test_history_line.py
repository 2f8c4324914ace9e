"""The line of an event: it is read as it is written."""
from __future__ import annotations

import unittest

from jepmon.history import read_history
from jepmon.history.line import LINE, TIME, event_line, part_of_text, part_text

PARTS = (None, 0, -7, (1, 2), frozenset(), frozenset([3, -1]))


class Lines(unittest.TestCase):
    def test_a_line_is_read_as_it_is_written(self) -> None:
        for part in PARTS:
            for further in ("", ", :time 12", ", :time -3, :error :timeout"):
                line = event_line("ok", 3, "read", 7, part_text(part), further)
                found = LINE.fullmatch(line)
                assert found is not None, line
                self.assertEqual(found.groups()[:4], ("ok", "3", "read", "7"))
                self.assertEqual((part_of_text(found[5]), found[6] or ""), (part, further))

    def test_the_time(self) -> None:
        self.assertEqual([TIME.match(text)[1] for text in (", :time 12", ", :time -3, :error :timeout")], ["12", "-3"])  # type: ignore[index]

    def test_the_reader_of_histories_takes_it(self) -> None:
        text = event_line("invoke", 0, "write", 7, "1") + "\n" + event_line("ok", 0, "write", 7, "1", ", :time 5") + "\n"
        self.assertEqual([(one.kind, one.process, one.name, one.key, one.value) for one in read_history(text)],
                         [("invoke", 0, "write", 7, 1), ("ok", 0, "write", 7, 1)])


if __name__ == "__main__":
    unittest.main()
