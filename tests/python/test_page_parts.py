"""The parts of a page: rows and gaps, faults, labels, bars as text, the picture of the documents."""
from __future__ import annotations

import random
import unittest
import xml.etree.ElementTree
from typing import List, Sequence

from . import TOP
from .made_pages import MADE, given, register

from jepmon import history, page
from jepmon.history import Event
from jepmon.history import fault_notes as notes
from jepmon.page import choice, faults, labels, layout, picture, view


def event(index: int, **fields: int) -> Event:
    return Event(index, "invoke", 0, "read", 7, None, index + 1, "", fields)


class Rows(unittest.TestCase):
    def test_what_timed_out_has_a_row_below(self) -> None:
        text = "\n".join("{:type :%s, :process %d, :f :%s, :value [7 %s]}" % row for row in (
            ("invoke", 0, "write", "1"), ("info", 0, "write", "1"), ("invoke", 2, "read", "nil"), ("info", 2, "read", "nil"),
            ("invoke", 4, "read", "nil"), ("ok", 4, "read", "1"), ("invoke", 1, "write", "2")))
        events = history.read_history(text)
        places = {each.index: place for place, each in enumerate(events)}
        found = layout.lanes(history.operations(events, 2), places, len(events))
        self.assertEqual([lane.rows for lane in found], [2, 1])
        self.assertEqual([(bar.row, bar.begin, bar.end, bar.told) for bar in found[0].bars],
                         [(1, 0, 7, 1), (0, 2, 3, 3), (0, 4, 5, 5)])
        self.assertEqual([(bar.row, bar.begin, bar.end) for bar in found[1].bars], [(0, 6, 7)])

    def test_bars_of_a_row_do_not_meet(self) -> None:
        for name, make in MADE.items():
            made = make()
            places = {each.index: place for place, each in enumerate(made.events)}
            for last in (10, len(places)):
                for lane in layout.lanes(history.operations(made.events, made.concurrency), places, last):
                    for row in range(lane.rows):
                        bars = [bar for bar in lane.bars if bar.row == row]
                        for before, after in zip(bars, bars[1:]):
                            self.assertLessEqual(before.end, after.begin, name)

    def test_gaps_have_room_for_each_label(self) -> None:
        draw = random.Random(1)
        for _ in range(200):
            least = [draw.randrange(1, 9) for _ in range(20)]
            begins = [draw.randrange(12) for _ in range(15)]
            spans = [(begin, begin + draw.randrange(1, 9), draw.randrange(60)) for begin in begins]
            wide = layout.gaps(least, spans)
            self.assertTrue(all(gap >= low for gap, low in zip(wide, least)))
            self.assertTrue(all(sum(wide[begin:end]) >= need for begin, end, need in spans))

    def test_a_page_shows_at_most_so_many_events(self) -> None:
        events = [event(index) for index in range(100)]
        for fatal in (0, 50, 99, None):
            found = choice.choose(events, 2, fatal, most=20)
            self.assertEqual(len(found.events), 20)
            self.assertTrue(fatal is None or fatal in [each.index for each in found.events])
            self.assertEqual(found.before + found.after, 80)


class Faults(unittest.TestCase):
    def spans(self, of: Sequence[page.Fault], indices: Sequence[int]) -> List[object]:
        return [(begin, end) for _, begin, end in faults.spans(of, [event(index, time=10 * index) for index in indices])]

    def test_places(self) -> None:
        indices = (10, 20, 30)
        self.assertEqual(self.spans([page.Fault("a", 15, 25)], indices), [(0, 1)])
        self.assertEqual(self.spans([page.Fault("a", 10, 20)], indices), [(-1, 0)])
        self.assertEqual(self.spans([page.Fault("a", 11, None)], indices), [(0, 2)])
        self.assertEqual(self.spans([page.Fault("a", 15, 15)], indices), [(0, 0)])
        self.assertEqual(self.spans([page.Fault("a", 0, 5)], indices), [])
        self.assertEqual(self.spans([page.Fault("a", 31)], indices), [])
        self.assertEqual(self.spans([page.Fault("a", 150, 250, "time")], indices), [(0, 1)])

    def test_a_note_of_a_monitor_is_a_fault(self) -> None:
        noted = notes.Fault("kill n1", 15, 1, 25, 2)
        self.assertEqual(faults.spans([noted], [event(index) for index in (10, 20, 30)]), [("kill n1", 0, 1)])

    def test_by_time_without_times_it_is_left_out(self) -> None:
        self.assertEqual(faults.spans([page.Fault("a", 15, 25, "time")], [event(10), event(20)]), [])

    def test_those_of_one_text_that_overlap_are_one(self) -> None:
        many = [page.Fault("start", 1), page.Fault("start", 3), page.Fault("stop", 2, 4), page.Fault("start", 5, 5), page.Fault("stop", 6, 7)]
        found = faults.spans(many, [event(index) for index in range(8)])
        self.assertEqual(found, [("start", 0, 7), ("stop", 1, 3), ("start", 4, 4), ("stop", 5, 6)])

    def test_of_many_faults_the_last_have_no_row(self) -> None:
        found = faults.rows([(str(number), number, 100) for number in range(20)], len)
        self.assertEqual([band.row for band in found], [*range(faults.ROWS), *[faults.NO_ROW] * (20 - faults.ROWS)])

    def test_rows_of_the_strip(self) -> None:
        found = faults.rows([("aaaa", 0, 10), ("bb", 2, 3), ("c", 12, 30), ("d", 13, 13)], lambda text: 2 * len(text))
        self.assertEqual([band.row for band in found], [0, 1, 0, 1])


class Words(unittest.TestCase):
    def test_labels(self) -> None:
        words = labels.Labels({3: "red", 4: "a\nb"})
        text = "\n".join("{:type :%s, :process %d, :f :%s, :value [7 %s]}" % row for row in (
            ("invoke", 0, "write", "3"), ("ok", 0, "write", "3"), ("invoke", 0, "cas", "[1 4]"), ("fail", 0, "cas", "[1 4]"),
            ("invoke", 0, "read", "nil"), ("ok", 0, "read", "-9223372036854775808"),
            ("invoke", 0, "acquire", "nil"), ("ok", 0, "acquire", "nil"),
            ("invoke", 0, "dequeue", "nil"), ("ok", 0, "dequeue", "2"), ("invoke", 0, "read", "nil"), ("ok", 0, "read", "#{3 1}"),
            ("invoke", 0, "read", "nil"), ("ok", 0, "read", "nil"), ("invoke", 0, "read", "nil")))
        found = [words.operation(each) for each in history.operations(history.read_history(text), 1)]
        self.assertEqual(found, ["write red", "cas 1\u2192a\\nb", "read \u2192 ABSENT", "acquire", "dequeue \u2192 2",
                                 "read \u2192 {1 red}", "read \u2192 nil", "read"])

    def test_a_great_set(self) -> None:
        self.assertEqual(labels.Labels({}).value(frozenset(range(100))), "{" + " ".join(map(str, range(24))) + " and 76 more}")

    def test_what_numbers_stand_for(self) -> None:
        asked = event(0)._replace(name="cas", value=(1, 2))
        self.assertEqual(labels.Labels({1: "a", 2: "b"}).stands_for(asked, None), "1 stands for a; 2 stands for b")

    def test_wide_letters(self) -> None:
        self.assertEqual([view.letters(text) for text in ("abc", "\u5b57", "e\u0301", "")], [3, 2, 1, 0])


class Bars(unittest.TestCase):
    def test_an_example(self) -> None:
        self.maxDiff = None
        text = (TOP / "examples" / "stale-replica.edn").read_text()
        self.assertEqual(page.bars(given(text, "register", 3)), """\
event     0           1 2 3            4 5 6 7 8            9
client 0  \u251c\u2500 write 1 \u2500\u2524
                                           \u251c\u254c\u254c\u254c\u254c write 3 ? \u254c\u254c\u254c\u254c\u254c
client 1                \u251c\u2500\u2500\u2500 write 2 \u2500\u2500\u2500\u2500\u2524
client 2                  \u251c\u2500 read \u2192 2 \u2500\u2524       \u255e\u2550 read \u2192 1 \u2550\u2561
                                                            \u25b2 illegal""")

    def test_they_have_room(self) -> None:
        for name, make in MADE.items():
            for width in (60, 80, 130):
                lines = page.bars(make(), width, 20).split("\n")
                with self.subTest(f"{name} {width}"):
                    self.assertLessEqual(len(lines), 20)
                    self.assertLessEqual(max(len(line) for line in lines[:-1] or [""]), width + 60)

    def test_plain(self) -> None:
        self.assertTrue(page.bars(register(), plain=True).isascii())

    def test_the_smallest_part(self) -> None:
        lines = page.bars(register(), 130).split("\n")
        self.assertEqual(len([line for line in lines if line.startswith("client")]), 3)
        self.assertIn("read \u2192 21", "".join(lines))


class Picture(unittest.TestCase):
    FILE = TOP / "docs" / "stale-replica.svg"
    TEXT = (TOP / "examples" / "stale-replica.edn").read_text()

    def test_it_is_up_to_date(self) -> None:
        made = picture.picture(self.TEXT, 3)
        self.assertEqual(self.FILE.read_text("utf-8"), made,
                         "make it again: python3 -m jepmon.page.picture examples/stale-replica.edn 3 > docs/stale-replica.svg")

    def test_it_is_well_formed(self) -> None:
        root = xml.etree.ElementTree.fromstring(self.FILE.read_text("utf-8"))
        self.assertEqual(root.tag, "{http://www.w3.org/2000/svg}svg")
        self.assertNotIn("var(", self.FILE.read_text("utf-8"))
        self.assertNotRegex(self.FILE.read_text("utf-8"), r"\{[a-z-]+\}")

    def test_a_legal_history_has_one_too(self) -> None:
        made = picture.picture((TOP / "examples" / "write-then-read.edn").read_text(), 2)
        self.assertIn("legal", made)
        xml.etree.ElementTree.fromstring(made)


if __name__ == "__main__":
    unittest.main()
