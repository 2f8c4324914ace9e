"""The choices of jepmon-judge if a history is judged in shards: which way it goes, the model, the lines of the bad key."""
from __future__ import annotations

import gzip
import pathlib
import tempfile
import unittest
from typing import Dict, Optional, Tuple

from jepmon.forms import Refused, files
from jepmon.from_jepsen import turn
from jepmon.history import Event
from jepmon.judge import by_shards, large, large_key, words
from jepmon.shards.lines import code_of
from jepmon.shards.tally import Tally
from jepmon.shrinking.part import text_of

from .test_shards_check import line, written

Sorts = Dict[Tuple[str, str], int]


def tally(counts: Sorts, nils: int = 0, sets: int = 0) -> Tally:
    sorts = {code_of(kind.encode(), 0, name.encode()): number for (name, kind), number in counts.items()}
    return Tally(sum(counts.values()), sorts, nils, sets)


class Models(unittest.TestCase):
    def chosen(self, counts: Sorts, nils: int = 0, sets: int = 0, model: Optional[str] = None) -> Optional[str]:
        return by_shards.chosen(tally(counts, nils, sets), model).common

    def test_by_operations(self) -> None:
        self.assertEqual(self.chosen({("write", "ok"): 1, ("read", "ok"): 1}), "register")
        self.assertEqual(self.chosen({("write", "ok"): 1, ("cas", "fail"): 1}), "cas-register")
        self.assertEqual(self.chosen({("enqueue", "invoke"): 1}), "fifo-queue")
        self.assertEqual(self.chosen({("add", "invoke"): 1, ("read", "ok"): 2}, sets=2), "set")
        self.assertEqual(self.chosen({("read", "ok"): 2}, sets=1, nils=1), "set")
        self.assertEqual(self.chosen({("read", "ok"): 2}, nils=2), "register")

    def test_of_several_kinds(self) -> None:
        for counts, sets in (({("write", "ok"): 1, ("acquire", "ok"): 1}, 0), ({("write", "ok"): 1, ("read", "ok"): 2}, 1),
                             ({("add", "ok"): 1, ("read", "ok"): 2}, 1)):
            self.assertIsNone(self.chosen(counts, sets=sets))
            self.assertEqual(self.chosen(counts, sets=sets, model="mutex"), "mutex")

    def test_what_jepsen_has_said(self) -> None:
        made = turn("{:type :invoke, :f :enqueue, :value [1 2], :process 0}")
        self.assertEqual(by_shards.chosen(Tally(), None, made).common, "fifo-queue")


class Ways(unittest.TestCase):
    def setUp(self) -> None:
        scratch = tempfile.TemporaryDirectory()
        self.addCleanup(scratch.cleanup)
        self.path = pathlib.Path(scratch.name, "history.edn")

    def large(self, text: str) -> large.Large:
        self.path.write_text(text)
        return large.asked(files.found(str(self.path)), words.given([str(self.path), "--jobs", "1"]))

    def test_what_is_asked(self) -> None:
        self.assertFalse(large.is_asked(words.given(["x", "--concurrency", "64"])))
        for more in (("--jobs", "2"), ("--dask", "tcp://x:1"), ("--concurrency", "65")):
            self.assertTrue(large.is_asked(words.given(["x", *more])), more)

    def test_forms(self) -> None:
        jepsen = "{:type :invoke, :f :read, :value [1 nil], :process 0}\n"
        for text, is_own in ((written(0, 1), True), ("; x\n\n" + written(0, 1), True), (jepsen, False), ("[" + jepsen + "]", False),
                             ("#jepsen.history.Op" + jepsen, False), ("{:type :invoke, :process 0, :f :read, :value nil}\n", False),
                             ("{:type :info, :process :nemesis, :f :heal, :value nil}\n" + written(0, 1), True),
                             ("{:index 0, :type :invoke, :process 0, :f :read, :value [0 nil]}", True)):
            found = self.large(text)
            self.assertEqual((found.made is None, found.path), (is_own, str(self.path)), text)
        for text in ("", '{"process": 0}\n', "client,op,key\n", "\x1f\x8bx", "BZh", "\0"):
            with self.assertRaises(Refused):
                self.large(text)

    def test_gzip(self) -> None:
        text = written(0, 30).encode()
        self.path.write_bytes(gzip.compress(text[:100]) + gzip.compress(text[100:]))
        found = large.asked(files.found(str(self.path)), words.given(["x"]))
        self.assertEqual((found.path, "".join(found.history)), (None, text.decode()))  # type: ignore[arg-type]
        self.path.write_bytes(gzip.compress(text)[:-9])
        with self.assertRaisesRegex(Refused, "cut off"):
            found = large.asked(files.found(str(self.path)), words.given(["x"]))
            "".join(found.history)  # type: ignore[union-attr, arg-type]


class BadKeys(unittest.TestCase):
    def test_lines_of_events(self) -> None:
        text = "; a comment\n" + written(0, 1) + line("invoke", 1, "read", 70000, "nil").replace("}\n", ", :time 12}\n") + "\n" + line(
            "ok", 1, "read", 70000, "7")
        found = dict(large_key.lines_of(text.splitlines(keepends=True), [70000], {2, 3}))
        self.assertEqual({index: number for index, (number, _) in found.items()}, {2: 4, 3: 6})
        event = Event(2, "invoke", 1, "read", 70000, None, 0, "", {})
        told = large_key.told(event, *found[2])
        self.assertEqual((told.line, dict(told.fields)), (4, {"time": 12}))

    def test_a_text_for_the_program(self) -> None:
        """A history with more clients or keys than the program takes."""
        events = [Event(0, "invoke", 150, "write", 70000, 1, 0, "", {}), Event(1, "invoke", 90, "read", 70000, None, 0, "", {}),
                  Event(2, "info", 150, "write", 70000, 1, 0, "", {}), Event(3, "invoke", 20, "read", 70000, None, 0, "", {}),
                  Event(4, "ok", 90, "read", 70000, 1, 0, "", {})]
        lines = [text.split(", ")[:2] + [text.split("[")[1].split("]")[0]] for text in text_of(events, 200).splitlines()]
        self.assertEqual(lines, [["{:type :invoke", ":process 0", "0 1"], ["{:type :invoke", ":process 1", "0 nil"],
                                 ["{:type :info", ":process 0", "0 1"], ["{:type :invoke", ":process 64", "0 nil"],
                                 ["{:type :ok", ":process 1", "0 1"]])


if __name__ == "__main__":
    unittest.main()
