"""Checks by shards: the same bytes as one check within its limits, and what is said beyond them."""
from __future__ import annotations

import io
import itertools
import os
import signal
import tempfile
import threading
import time
import unittest
from typing import List, Optional
from unittest import mock

from jepmon import program, shards
from jepmon.forms import own
from jepmon.history.line import event_line
from jepmon.history.process_lives import Lives
from jepmon.program import Options
from jepmon.shards.checking import opened
from jepmon.shards.lines import rows_of
from jepmon.shards.sizes import Sizes
from jepmon.shards.team import Team
from jepmon.shards.threads import fewest_threads, tell

from .fuzz import has_program
from .shard_histories import case_of

CASES = int(os.environ.get("JEPMON_FUZZ", "15")) * 8


def line(kind: str, process: int, name: str, key: int, part: str) -> str:
    return event_line(kind, process, name, key, part) + "\n"


def written(key: int, count: int, process: int = 0) -> str:
    """So many writes of a key, one after another."""
    return "".join(line(kind, process, "write", key, str(number)) for number in range(count) for kind in ("invoke", "ok"))


def checked(text: str, concurrency: int = 2, sizes: Sizes = Sizes(), jobs: int = 1) -> program.Report:
    return shards.check(text.encode(), Options(concurrency), jobs, sizes=sizes)


@unittest.skipUnless(has_program(), "there is no program")
class SameAsCheck(unittest.TestCase):
    def test_random_histories(self) -> None:
        """All kinds, crashes, fails, small budgets, many spellings, refused ones: see tests/fuzz_shards.py for more of them."""
        words = set()
        for seed in range(CASES):
            case = case_of(seed)
            told = program.check(case.text, case.options)
            found = shards.check(case.text, case.options, 1, sizes=case.sizes)
            self.assertEqual((told.text, told.status), (found.text, found.status), f"seed {seed}")
            self.assertEqual((told.keys, told.word, told.key, told.index), (found.keys, found.word, found.key, found.index))
            words.add(told.word)
        self.assertEqual(words, {"legal", "illegal", "unknown", "refused"})

    def test_side_by_side(self) -> None:
        text = "".join(written(key, 5) for key in range(40)) + line("invoke", 1, "read", 7, "nil") + line("ok", 1, "read", 7, "99")
        small = Sizes(block=200, piece=1000, shard=1000)
        self.assertEqual(checked(text, sizes=small, jobs=2).text, program.check(text.encode()).text)

    def test_options_out_of_limits(self) -> None:
        for options in (Options(budget=0), Options(budget=(1 << 16) + 1), Options(concurrency=0)):
            told, found = program.check(b"", options), shards.check(b"", options, 1)
            self.assertEqual((told.verdict.split(":")[0], told.status, told.text), (found.verdict, found.status, found.text))

    def test_places_of_unreadable_texts(self) -> None:
        """The longest prefix that is a text ends before a discard whose element can't be read, or with an atom of it."""
        for text in (b"#_ :", b"#_:", b"1 #_\n\n; c\n)", b"#_ #_ :", b"#_ [1 :", b"#_ 1.5", b"1 #_ ; c\n", b"; c\n:", b":", b"1.5", b"#_", b"]", b"[#_ :]"):
            self.assertEqual(shards.check(text, Options(), 1).text, program.check(text, Options()).text, text)

    def test_a_file_that_can_not_be_read(self) -> None:
        self.assertEqual(shards.check("no/such/file", Options(), 1).text, "refused 20 ReadFailed\n")


@unittest.skipUnless(has_program(), "there is no program")
class BeyondLimits(unittest.TestCase):
    def test_more_clients_and_keys(self) -> None:
        """Seventy clients at once, and keys beyond those that a check takes."""
        keys = [70_000 + number for number in range(70)]
        text = "".join(line("invoke", number, "write", key, "1") for number, key in enumerate(keys))
        text += "".join(line("ok", number, "write", key, "1") for number, key in enumerate(keys))
        report = checked(text + line("invoke", 3, "read", keys[5], "nil") + line("ok", 3, "read", keys[5], "2"), 70)
        self.assertEqual(report.verdict, f"illegal key {keys[5]} index 141")
        self.assertEqual(len(report.keys), 70)
        self.assertEqual(report.text.splitlines()[0], f"key 70000 model {Options().kind()} budget 4096 events 2 status alive")

    def test_a_key_with_too_many_events(self) -> None:
        """It is judged up to there, and never legal; what another key has done counts more."""
        small = Sizes(events=10)
        text = written(0, 9)
        report = checked(text, sizes=small)
        self.assertEqual(report.text, f"key 0 model {Options().kind()} budget 4096 events 18 status full 10\nunknown key 0 index 10\n")
        self.assertEqual(report.status, 2)
        text += line("invoke", 1, "read", 1, "nil") + line("ok", 1, "read", 1, "5")
        self.assertEqual(checked(text, sizes=small).verdict, "illegal key 1 index 19")
        self.assertEqual(checked(written(0, 5), sizes=small).verdict, "legal")

    def test_what_is_behind_is_tested(self) -> None:
        """The part after the judged events is refused as one check refuses it."""
        text = written(0, 8) + line("invoke", 0, "write", 0, "1") + line("ok", 0, "write", 0, "2")
        self.assertEqual(checked(text, sizes=Sizes(events=10)).verdict, "refused 4 Mismatch event 17")

    def test_a_key_with_too_many_operations_open(self) -> None:
        text = "".join(line("invoke", number, "read", 4, "nil") for number in range(70))
        report = checked(text + "".join(line("ok", number, "read", 4, "nil") for number in range(70)), 70)
        self.assertEqual(report.text, f"key 4 model {Options().kind()} budget 4096 events 140 status wide 64\nunknown key 4 index 64\n")

    def test_illegal_before_it_is_cut(self) -> None:
        text = line("invoke", 0, "read", 0, "nil") + line("ok", 0, "read", 0, "8") + written(0, 9)
        self.assertEqual(checked(text, sizes=Sizes(events=10)).verdict, "illegal key 0 index 1")


class Threads(unittest.TestCase):
    def fewest(self, text: str) -> Optional[int]:
        lives = Lives()
        tell(lives, rows_of(text.encode())[0])
        return lives.fewest()

    def test_as_the_whole_history_has_it(self) -> None:
        """The same as of a history that is read at once."""
        compared = 0
        for seed in range(200):
            case = case_of(seed)
            found = own.read(case.text.decode("utf-8", "replace"))
            if found is not None and found.facts.events:
                compared += 1
                self.assertEqual(self.fewest(found.text), own.concurrency_of(found.facts), f"seed {seed}")
        self.assertGreater(compared, 50)

    def test_processes_after_a_crash(self) -> None:
        crash = line("invoke", 0, "read", 0, "nil") + line("info", 0, "read", 0, "nil")
        self.assertEqual(self.fewest(crash + line("invoke", 200, "read", 0, "nil")), 200)
        self.assertEqual(self.fewest(line("invoke", 3, "read", 0, "nil") + crash + line("invoke", 4, "read", 0, "nil")), 4)
        self.assertIsNone(self.fewest(crash + crash))
        self.assertEqual(self.fewest(""), 1)

    @unittest.skipUnless(has_program(), "there is no program")
    def test_clients_that_come_late(self) -> None:
        """If a prefix of a history has fewer clients than all of it, all of it is looked through."""
        text = written(0, 200_000) + written(1, 3, process=5)
        with opened(text.encode(), Options(1), 1, finds_threads=True) as session:
            self.assertEqual(session.options.concurrency, 1)
            session.read()
            self.assertEqual(session.options.concurrency, 6)
            self.assertEqual(session.tally.events, 400_006)

    def test_a_file_that_is_no_history(self) -> None:
        with tempfile.NamedTemporaryFile() as file:
            file.write(b"{:type :invoke, :process x\n")
            file.flush()
            self.assertIsNone(fewest_threads(file.name, 1 << 20))


@unittest.skipUnless(has_program(), "there is no program")
class Sessions(unittest.TestCase):
    def test_what_is_counted(self) -> None:
        text = (written(0, 3) + line("invoke", 0, "read", 0, "nil") + line("ok", 0, "read", 0, "nil")
                + line("invoke", 0, "read", 0, "nil") + line("ok", 0, "read", 0, "2")
                + line("invoke", 0, "read", 0, "nil") + line("info", 0, "read", 0, "nil"))
        for sizes in (Sizes(), Sizes(block=60, piece=100, slab=100)):
            with opened(text.encode(), Options(), 1, sizes=sizes) as session:
                session.read()
            tally = session.tally
            self.assertEqual((tally.events, tally.names(), tally.reads_of_nil(), tally.number_of("read", "ok")), (12, ["read", "write"], 1, 2))
            self.assertEqual(dict(tally.outcomes()), {"read ok": 2, "read info": 1, "write ok": 3})
            self.assertEqual(tally.models(), ["register", "cas-register"])

    def test_the_events_of_a_key(self) -> None:
        text = written(0, 2) + written(9, 2) + line("invoke", 1, "read", 9, "nil") + written(0, 1) + line("ok", 1, "read", 9, "1")
        with opened(text.encode(), Options(), 1, sizes=Sizes(block=100, piece=150)) as session:
            session.judged(Options())
            found = [(event.place, event.kind, event.process, event.name, event.part) for event in session.events_of(9)]
        self.assertEqual(found[0], (4, "invoke", 0, "write", "0"))
        self.assertEqual(found[-2:], [(8, "invoke", 1, "read", "nil"), (11, "ok", 1, "read", "1")])
        self.assertEqual(len(found), 6)

    def test_no_file_is_left(self) -> None:
        with tempfile.TemporaryDirectory() as folder:
            shards.check(written(0, 3).encode(), Options(), 1, temporary=folder)
            with self.assertRaises(shards.ShardsError):
                shards.check(endless(), Options(), 1, temporary=folder)
            self.assertEqual(os.listdir(folder), [])

    def test_a_process_that_is_killed(self) -> None:
        with Team(2) as team:
            threading.Timer(1.0, lambda: [os.kill(member.process.pid, signal.SIGKILL) for member in team._members]).start()
            with self.assertRaisesRegex(shards.ShardsError, "has ended, by signal 9: nothing is judged"):
                list(team.run(time.sleep, [600, 600]))
            self.assertEqual(team._members, [])


class Terminal(io.StringIO):
    def isatty(self) -> bool:
        return True


class Progressing(unittest.TestCase):
    def said(self, terminal: io.StringIO) -> str:
        progress = shards.Progress(terminal)
        with mock.patch("time.monotonic", side_effect=itertools.count(time.monotonic(), 5)):
            self.assertEqual(list(progress.over("judged", iter("abcd"), 4)), list("abcd"))
        return terminal.getvalue()

    def test_on_a_terminal(self) -> None:
        """One line that is written over, and nothing is left of it."""
        said = self.said(Terminal())
        self.assertIn("\rjudged 25 %\rjudged 50 %", said)
        self.assertTrue(said.endswith("\r" + " " * len("judged 75 %") + "\r"))

    def test_elsewhere(self) -> None:
        self.assertEqual(self.said(io.StringIO()), "")


def endless() -> "List[bytes]":
    raise_at_end = written(0, 3).encode()

    def pieces():  # type: ignore[no-untyped-def]
        yield raise_at_end
        raise OSError(28, "No space left on device")
    return pieces()  # type: ignore[no-any-return]


if __name__ == "__main__":
    unittest.main()
