"""Reads of registers that are answered by nil: after a value was there, nil may say nothing, or that the value is lost. That is a guess."""
from __future__ import annotations

import json
import random
import unittest
from typing import List, Tuple

from .test_judge_results import Judged

GUESS = "guess of the absent value: nil says nothing of what a register holds, and 1 read answered it after a value was there"
REFUSED = "the history is legal if nil says nothing of what a register holds, and illegal if it is what a missing key answers; say --nil-is-absent or --nil-is-unknown"
Told = Tuple[str, int, str, str]  # the type, the process, the operation and the part of an event
LOST: List[Told] = [("invoke", 0, "write", "1"), ("ok", 0, "write", "1"), ("invoke", 1, "read", "nil"), ("ok", 1, "read", "nil")]
FOUND: List[Told] = [("invoke", 1, "read", "nil"), ("ok", 1, "read", "1")]
JOBS = ((), ("--jobs", "1"))


def edn(events: List[Told], key: str = "7") -> str:
    return "".join(f"{{:type :{kind}, :process {process}, :f :{name}, :value [{key} {part}]}}\n" for kind, process, name, part in events)


def rows(events: List[Told]) -> str:
    return "".join(json.dumps({"type": kind, "client": process, "op": name, "key": "x", "value": json.loads(part.replace("nil", "null")), "index": place})
                   + "\n" for place, (kind, process, name, part) in enumerate(events))


class Nils(Judged):
    def test_a_value_that_is_lost(self) -> None:
        """In each form, plainly and in shards: the verdict is refused, and given with each of the options."""
        lost = [*LOST, *FOUND]
        for text, name in ((edn(lost), "own.edn"), (edn(lost, '"k"'), "jepsen.edn"), (rows(lost), "rows.jsonl")):
            for shards in JOBS:
                ran = self.judged(text, *shards, name=name)
                self.assertEqual((ran.status, ran.out), (3, ""), (name, shards))
                self.assertIn(GUESS, ran.err)
                self.assertIn(REFUSED, ran.err)
                for option, status in (("--nil-is-absent", 1), ("--nil-is-unknown", 0)):
                    ran = self.judged(text, option, *shards, name=name)
                    self.assertEqual(ran.status, status, (name, option, shards, ran.err))
                    self.assertNotIn("guess of the absent value", ran.err)

    def test_strict_input(self) -> None:
        given = rows([*LOST, *FOUND])
        for option, status in (("--nil-is-absent", 1), ("--nil-is-unknown", 0), ("--no-cause", 3)):
            ran = self.judged(given, "--model", "register", "--strict-input", option)
            self.assertEqual(ran.status, status, ran.err)
        self.assertIn("say --nil-is-absent or --nil-is-unknown", ran.err)

    def test_what_is_no_guess(self) -> None:
        """Where no value can have been there, both readings agree."""
        before = [("invoke", 1, "read", "nil"), ("invoke", 0, "write", "1"), ("ok", 0, "write", "1"), ("ok", 1, "read", "nil")]
        failed = [("invoke", 0, "write", "1"), ("fail", 0, "write", "1"), *LOST[2:], *LOST[:2]]
        timed_out = [("invoke", 0, "write", "1"), ("info", 0, "write", "1"), *LOST[2:]]
        for events in (before, failed, timed_out):
            for shards in JOBS:
                ran = self.judged(edn([*events, *FOUND]), *shards, name="history.edn")
                self.assertEqual(ran.status, 0, ran.err)
                self.assertNotIn("guess of the absent value", ran.err)

    def test_a_guess_that_changes_nothing(self) -> None:
        """A key that a write of unknown end may have deleted is not a register of jepmon; an illegal history stays so."""
        illegal = [*LOST, ("invoke", 1, "read", "nil"), ("ok", 1, "read", "5")]
        for shards in JOBS:
            ran = self.judged(edn(illegal), "--initial", "9", *shards, name="history.edn")
            self.assertEqual(ran.status, 1, ran.err)
            self.assertIn(GUESS, ran.err)

    def test_both_options_are_refused(self) -> None:
        self.assertEqual(self.judged(edn(LOST), "--nil-is-absent", "--nil-is-unknown", name="history.edn").status, 3)

    def test_commands_of_a_script_are_in_jepmons_form(self) -> None:
        ran = self.judged("[:model 7 :register]\n" + edn([*LOST, *FOUND]), name="history.edn")
        self.assertEqual(ran.status, 0, ran.err)

    def test_without_such_a_read_both_readings_agree(self) -> None:
        draw, count = random.Random(7), 0
        for _ in range(120):
            text = edn(drawn(draw))
            ran = self.judged(text, "--no-cause", "--min-ok", "0", "--model", "register", name="history.edn")
            if ran.status == 0 and "guess of the absent value" not in ran.err and "[7 nil]}" in text:
                count += 1
                again = self.judged(text, "--no-cause", "--min-ok", "0", "--model", "register", "--nil-is-absent", name="history.edn")
                self.assertEqual(again.status, 0, text)
        self.assertGreater(count, 10)


def drawn(draw: random.Random) -> List[Told]:
    """Events of three clients of one register, at random."""
    events: List[Told] = []
    opened: List[Told] = []
    for _ in range(9):
        idle = sorted({0, 1, 2} - {told[1] for told in opened})
        if opened and (not idle or draw.random() < 0.5):
            _, process, name, part = opened.pop(draw.randrange(len(opened)))
            part = draw.choice(("nil", "nil", "1", "2")) if name == "read" else part
            events.append((draw.choice(("ok", "ok", "fail")) if part != "nil" and name == "write" else "ok", process, name, part))
        else:
            name = draw.choice(("read", "read", "write"))
            opened.append(("invoke", draw.choice(idle), name, draw.choice("12") if name == "write" else "nil"))
            events.append(opened[-1])
    return events


if __name__ == "__main__":
    unittest.main()
