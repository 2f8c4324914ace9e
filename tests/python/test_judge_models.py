"""The model of each key, by its operations and answers, and the threads of a history."""
from __future__ import annotations

import unittest
from typing import Dict, List, Optional, Sequence

from jepmon.forms import Refused
from jepmon.forms.own import Facts, read
from jepmon.judge import models


def facts(*lines: str) -> Facts:
    """The facts of events in short: type, process, name, value."""
    text = "".join("{{:type :{}, :process {}, :f :{}, :value {}}}\n".format(*line.split(" ", 3)) for line in lines)
    own = read(text)
    assert own is not None, text
    return own.facts


def of_names(*names: str, key: int = 1) -> List[str]:
    parts = {"cas": "[1 2]", "write": "1", "enqueue": "1", "add": "1"}
    return [f"invoke {number} {name} [{key} {parts.get(name, 'nil')}]" for number, name in enumerate(names, 10 * key)]


class Models(unittest.TestCase):
    def chosen(self, lines: Sequence[str], given: Optional[str] = None, stated: Optional[Dict[int, str]] = None) -> models.Choice:
        return models.chosen(facts(*lines), given, stated or {}, {})

    def test_by_the_operations(self) -> None:
        for names, model in ((("read", "write"), "register"), (("write",), "register"), (("cas", "read"), "cas-register"),
                             (("acquire",), "mutex"), (("enqueue", "dequeue"), "fifo-queue"), (("add", "read"), "set"), (("add",), "set"),
                             (("read",), "register")):
            with self.subTest(names=names):
                self.assertEqual(self.chosen(of_names(*names)).common, model)

    def test_by_the_answers(self) -> None:
        self.assertEqual(self.chosen(["invoke 0 read [1 nil]", "ok 0 read [1 #{1}]"]).common, "set")
        self.assertEqual(self.chosen(["invoke 0 read [1 nil]", "ok 0 read [1 4]"]).common, "register")

    def test_one_for_all_keys(self) -> None:
        choice = self.chosen(of_names("read", "write") + of_names("cas", key=2))
        self.assertEqual((choice.common, choice.reason), ("cas-register", "by its operations: cas, read, write"))

    def test_several_kinds(self) -> None:
        choice = self.chosen(of_names("write") + of_names("acquire", key=2))
        self.assertEqual((choice.common, choice.models), (None, {1: "register", 2: "mutex"}))
        self.assertEqual(choice.reason, "its keys are of several kinds: 1 register, 1 mutex")

    def test_which_of_two_was_taken(self) -> None:
        self.assertEqual(self.chosen(of_names("enqueue", "dequeue")).reason, "by its operations: dequeue, enqueue; the stricter of two: "
                         "if no order was promised, pass --model unordered-queue")

    def test_what_is_said(self) -> None:
        self.assertEqual(self.chosen(of_names("enqueue"), "unordered-queue").common, "unordered-queue")
        self.assertEqual(self.chosen(of_names("enqueue"), "register", {1: "unordered-queue"}).common, "unordered-queue")

    def test_refusals(self) -> None:
        with self.assertRaisesRegex(Refused, "key 1 has enqueue and read, which no object has together"):
            self.chosen(of_names("enqueue", "read"))
        with self.assertRaisesRegex(Refused, "key 1 has adds, and reads answered by integers: this is a counter"):
            self.chosen(["invoke 0 add [1 1]", "invoke 1 read [1 nil]", "ok 1 read [1 1]"])
        self.assertEqual(self.chosen(of_names("enqueue", "read"), "register").common, "register")


class Threads(unittest.TestCase):
    def test_the_fewest_that_fit(self) -> None:
        for lines, threads in ((["invoke 0 read [1 nil]"], 1), (["invoke 4 read [1 nil]"], 5),
                               (["invoke 0 read [1 nil]", "info 0 read [1 nil]", "invoke 3 read [1 nil]"], 3),
                               (["invoke 1 read [1 nil]", "info 1 read [1 nil]", "invoke 1 read [1 nil]"], None),
                               (["invoke 64 read [1 nil]"], None)):
            with self.subTest(lines=lines):
                self.assertEqual(models.concurrency_of(facts(*lines)), threads)


if __name__ == "__main__":
    unittest.main()
