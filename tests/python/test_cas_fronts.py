"""Small histories of a register with compare and set, whose ends and fronts are counted by hand; and queues whose values are equal."""
from __future__ import annotations

import unittest
from typing import List, Optional, Tuple

from jepmon import history

from .cas_fronts import CasRegister
from .equal_values import Queue
from .lean_ends import Part, Row, judged

WRITTEN: List[Row] = [(0, "invoke", "write", 1), (0, "ok", "write", 1)]


def after(rows: List[Row], budget: int = 99) -> CasRegister:
    return judged(CasRegister(budget), rows)


def opened(name: str, parts: List[Part], first: int = 1) -> List[Row]:
    return [(op, "invoke", name, part) for op, part in enumerate(parts, first)]


class Fronts(unittest.TestCase):
    def count(self, rows: List[Row]) -> int:
        return len(after(rows).fronts())

    def test_each_open_write_makes_one(self) -> None:
        self.assertEqual(self.count(WRITTEN), 1)
        self.assertEqual(self.count(WRITTEN + opened("write", [2, 3, 4])), 4)

    def test_a_cas_takes_place_only_in_its_state(self) -> None:
        self.assertEqual(self.count(WRITTEN + opened("cas", [(1, 2), (2, 3), (5, 6)])), 3)  # none, the first, both of these
        same = WRITTEN + opened("cas", [(1, 1)])
        self.assertEqual((self.count(same), self.count(same + [(1, "info", "cas", None)])), (2, 1))  # the one without it may become as much

    def test_a_write_may_come_between(self) -> None:
        # none; the cas; the write; the write behind the cas
        self.assertEqual(self.count(WRITTEN + opened("cas", [(1, 2)]) + opened("write", [3], 2)), 4)

    def test_the_budget(self) -> None:
        rows = WRITTEN + opened("write", [2, 3, 4]) + [(4, "invoke", "read", None), (4, "ok", "read", 1)]
        self.assertEqual((after(rows, 3).status, after(rows, 4).status), ("over 6", "alive"))

    def test_illegal(self) -> None:
        done: List[Row] = [(1, "invoke", "cas", (1, 2)), (1, "ok", "cas", None), (2, "invoke", "read", None)]
        self.assertEqual(after(WRITTEN + done + [(2, "ok", "read", 2)]).status, "alive")
        self.assertEqual(after(WRITTEN + done + [(2, "ok", "read", 1)]).status, "dead 5")
        self.assertEqual(after(WRITTEN + [(1, "invoke", "cas", (2, 3)), (1, "ok", "cas", None)]).status, "dead 3")


class Queues(unittest.TestCase):
    def status(self, *rows: Tuple[str, int, str, Optional[int]]) -> str:
        queue = Queue()
        for index, (kind, process, name, value) in enumerate(rows):
            queue.take(history.Event(index, kind, process, name, 0, value, 0, "", {}))
        return queue.status

    def test_the_first_ok_after_both(self) -> None:
        both = [("invoke", 0, "enqueue", 5), ("ok", 0, "enqueue", 5), ("invoke", 0, "enqueue", 5)]
        self.assertEqual(self.status(*both), "alive")
        self.assertEqual(self.status(*both, ("ok", 0, "enqueue", 5)), "over 3")
        self.assertEqual(self.status(*both, ("fail", 0, "enqueue", 5), ("invoke", 0, "dequeue", None), ("ok", 0, "dequeue", 5)), "alive")
        self.assertEqual(self.status(*both, ("info", 0, "enqueue", 5), ("invoke", 4, "dequeue", None), ("ok", 4, "dequeue", 5)), "over 5")

    def test_illegal(self) -> None:
        self.assertEqual(self.status(("invoke", 0, "dequeue", None), ("ok", 0, "dequeue", 5)), "dead 1")


if __name__ == "__main__":
    unittest.main()
