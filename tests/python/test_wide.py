"""Keys that are over their budget, decided afterwards: the results, their lines in the report, and the words of the command line."""
from __future__ import annotations

import contextlib
import importlib
import io
import pathlib
import random
import tempfile
import time
import unittest
from typing import Dict, List, Optional, Tuple
from unittest import mock

from jepmon import program
from jepmon.history import Event, operations
from jepmon.judge import causes, tool, wide, words
from jepmon.program import KeyLine, Options, ProgramError
from jepmon.shrinking.part import text_of
from jepmon.wide import Clock, Decided, decide
from jepmon.wide.confirmed import Said, confirmed
from jepmon.wide.operation import OutOfTime

from .fuzz import batches, checked, has_program
from .histories import NAMES, Clients, Way


def decided(index: Optional[int], is_proved: bool) -> Decided:
    return Decided(index, [], None, is_proved, Options())


class Lines(unittest.TestCase):
    OVER = "key 1 model register budget 4 events 9 status over 5"
    OTHER = "key 2 model set budget 4 events 9 status over 6"
    ALIVE = "key 3 model set budget 4 events 9 status alive"
    DEAD = "key 4 model set budget 4 events 9 status dead 8"

    def marked(self, lines: List[str], found: Dict[int, Decided]) -> List[str]:
        marking = wide.Marking(found)
        return [*map(marking.mark, lines), marking.verdict().line]

    def test_a_proved_order(self) -> None:
        self.assertEqual(self.marked([self.OVER, self.ALIVE], {1: decided(None, True)}),
                         [self.OVER.replace("over 5", "confirmed"), self.ALIVE, "legal"])

    def test_an_order_that_is_not_proved_makes_nothing_legal(self) -> None:
        self.assertEqual(self.marked([self.OVER, self.ALIVE], {1: decided(None, False)}),
                         [self.OVER.replace("over", "ordered"), self.ALIVE, "unknown key 1 index 5"])

    def test_dead(self) -> None:
        self.assertEqual(self.marked([self.OVER, self.OTHER, self.DEAD], {1: decided(7, True)}),
                         [self.OVER.replace("over 5", "dead 7"), self.OTHER, self.DEAD, "illegal key 1 index 7"])
        self.assertEqual(self.marked([self.OVER, self.OTHER, self.DEAD], {2: decided(9, False)}),
                         [self.OVER, self.OTHER.replace("over 6", "dead-by 9"), self.DEAD, "illegal key 4 index 8"])

    def test_others_stay(self) -> None:
        lines = [self.OVER, self.ALIVE, self.OVER.replace("key 1", "key 5").replace("over 5", "full 3"), self.OTHER.replace("over", "wide")]
        self.assertEqual(self.marked(lines, {9: decided(None, True)}), [*lines, "unknown key 5 index 3"])

    def test_who_is_over(self) -> None:
        self.assertEqual([(one.key, one.options.model, one.options.budget, one.events)
                          for one in wide.over([self.OVER, self.ALIVE, self.OTHER, "unknown key 1 index 5"], Options())],
                         [(1, "register", 4, 9), (2, "set", 4, 9)])


class Words(unittest.TestCase):
    def test_seconds(self) -> None:
        for given, seconds in (([], 10), (["--decide-over-budget"], 600), (["--decide-seconds", "0"], 0),
                               (["--decide-over-budget", "--decide-seconds", "7"], 7), (["--wide"], 600), (["--wide-seconds", "7"], 7)):
            self.assertEqual(words.given(["FILE", *given]).wide_seconds, seconds)


@unittest.skipUnless(has_program(), "there is no program")
class Found(unittest.TestCase):
    """The result is the program's verdict, if it decides; else the tool reports the result."""

    def test_random_histories(self) -> None:
        way = Way(events=30, clients=5, wrong=0.05)
        for model in NAMES:
            for clients, histories in batches(model, 7, [way, way._replace(values=100), way._replace(values=2, crash=0.3)], 30):
                options = Options(clients, model, 65536)
                lines: Dict[int, KeyLine] = checked(histories, options)
                for key, events in histories.items():
                    found = decide(operations(events, clients), options, Clock(60, time.process_time))
                    with self.subTest(model=model, key=key):
                        self.assertIsNotNone(found)
                        if lines[key].status != "over":
                            self.assertEqual(found.index if found is not None else -1, lines[key].index)

    def test_a_part_is_illegal_at_the_event(self) -> None:
        found = decide(operations(self.wide_history(wrong=True), 20), Options(20, "register", 4096, by_ends=True), Clock(60, time.process_time))
        assert found is not None and found.part is not None
        self.assertLess(found.part.operations, 8)
        self.assertEqual(found.part.events[-1].index, found.index)
        self.assertEqual(program.check(found.part.text.encode(), found.part.options).word, "illegal")

    def wide_history(self, wrong: bool = False) -> List[Event]:
        """A history of twenty clients; in a wrong one a late read has an answer that was overwritten long ago."""
        chance = random.Random(5)
        events = Clients(chance, 20).history("register", Way(events=600, clients=20, values=1 << 40, crash=0, patience=0), 0)
        if wrong:
            answers = [place for place, event in enumerate(events)
                       if event.kind == "ok" and event.name == "read" and event.value is not None]
            events[answers[-1]] = events[answers[-1]]._replace(value=events[answers[3]].value)
        return events

    def judged(self, events: List[Event], *more: str) -> Tuple[int, str, str]:
        with tempfile.TemporaryDirectory() as folder:
            path = pathlib.Path(folder, "history.edn")
            path.write_text(text_of(events, 20))
            out, err = io.TextIOWrapper(io.BytesIO(), "utf-8"), io.StringIO()
            with contextlib.redirect_stdout(out), contextlib.redirect_stderr(err):
                status = tool.main([str(path), "--concurrency", "20", "--nil-is-unknown", "--by-ends", *more])
            out.flush()
            assert isinstance(out.buffer, io.BytesIO)
            return status, out.buffer.getvalue().decode(), err.getvalue()

    def test_the_tool(self) -> None:
        for more in ([], ["--jobs", "1"]):
            status, out, err = self.judged(self.wide_history(), *more)
            self.assertRegex(out, r"^key 0 model register budget 4096 events \d+ status "
                                  r"(confirmed\nlegal|ordered (\d+)\nunknown key 0 index \2)\n$")
            self.assertIn("1 key over the budget, decided afterwards: 1 by an order of the operations", err)
            status, out, err = self.judged(self.wide_history(wrong=True), *more)
            self.assertEqual(status, 1)
            self.assertRegex(out, r"^key 0 model register budget 4096 events \d+ status dead(-by)? (\d+)\nillegal key 0 index \2\n$")
            self.assertIn("which could not hold", err)

    def test_what_is_proved_is_said(self) -> None:
        """If a key is illegal by a part, no page and no line says that the verdict is proved."""
        with tempfile.TemporaryDirectory() as folder:
            page = pathlib.Path(folder, "page.html")
            err = self.judged(self.wide_history(wrong=True), "--html", str(page))[2]
            for text in (err, page.read_text("utf-8")):
                self.assertIn(causes.BY_PART, text)
                self.assertNotIn("verdict is jepmon's, and proved", text)
                self.assertNotIn("The verdict and jepmon's answers are proved", text)

    def test_a_fault_of_the_search_leaves_the_verdict(self) -> None:
        for fault, said in ((ValueError("x"), "key 0 is not decided, by a fault of judge itself: ValueError('x')"),
                            (MemoryError(), "they had 10 s together"), (RecursionError(), "they had 10 s together")):
            with mock.patch.object(importlib.import_module("jepmon.wide.decide"), "solve", side_effect=fault):
                status, out, err = self.judged(self.wide_history(), "--no-cause")
            self.assertEqual(status, 2)
            self.assertRegex(out, r"status over (\d+)\nunknown key 0 index \1\n$")
            self.assertIn(said, err)

    def test_without_it(self) -> None:
        for more in ([], ["--jobs", "1"]):
            status, out, err = self.judged(self.wide_history(), "--decide-seconds", "0", "--no-cause", *more)
            self.assertEqual(status, 2)
            self.assertRegex(out, r"^key 0 model register budget 4096 events \d+ status over (\d+)\nunknown key 0 index \1\n$")
            self.assertNotIn("afterwards", err)

    def test_a_page_shows_the_order(self) -> None:
        with tempfile.TemporaryDirectory() as folder:
            page = pathlib.Path(folder, "page.html")
            self.judged(self.wide_history(wrong=True), "--html", str(page))
            self.assertIn("One order of the operations, up to event", page.read_text("utf-8"))


class Confirmed(unittest.TestCase):
    """The program that confirms an order."""

    MADE = operations([Event(40, "invoke", 0, "write", 7, 1, 0, "", {}), Event(41, "invoke", 1, "read", 7, None, 0, "", {}),
                       Event(50, "ok", 1, "read", 7, 1, 0, "", {})], 2)

    def said(self, script: str, order: List[int], seconds: float = 60.0) -> Said:
        with tempfile.TemporaryDirectory() as folder:
            path = pathlib.Path(folder, "jepmon")
            path.write_text(f"#!/bin/sh\n{script}\n")
            path.chmod(0o755)
            return confirmed(self.MADE, Options(2, "register"), order, str(path), seconds)

    def test_a_program_that_confirms(self) -> None:
        events = "{:type :invoke, :process 0, :f :write, :value [7 1], :original-index 40}"
        asked = f"grep -qF '{events}' - || exit 9; [ \"$1 $2 $4 $5 $6 $7\" = 'confirm - --concurrency 2 --model register' ] || exit 8"
        orders = "[ \"$(tr '\\n' ' ' < $3)\" = '0 1 ' ] && echo linearizable && exit 0; echo no order place 1 event 0 too-late; exit 1"
        self.assertEqual(self.said(f"{asked}\n{orders}", [40, 41]), Said(True, True))
        self.assertEqual(self.said(f"{asked}\n{orders}", [41, 40]), Said(False, True))

    def test_a_program_that_does_not(self) -> None:
        self.assertEqual(self.said("exit 3", [40, 41]), Said(True, False))
        self.assertEqual(self.said("exit 3", [41, 40]), Said(False, False))

    def test_a_program_that_takes_long(self) -> None:
        with self.assertRaises(OutOfTime):
            self.said("exec sleep 60", [40, 41], 0.1)

    def test_no_room_for_the_order(self) -> None:
        with mock.patch("tempfile.NamedTemporaryFile", side_effect=OSError(28, "No space left on device")), \
             self.assertRaisesRegex(ProgramError, "No space left on device"):
            self.said("exit 3", [40, 41])

    def test_another_reply(self) -> None:
        with self.assertRaises(ProgramError):
            self.said("cat > /dev/null; echo refused 13 NoMemory; exit 3", [40, 41])


if __name__ == "__main__":
    unittest.main()
