"""The lean ends of small histories, counted by hand."""
import unittest
from typing import List

from .lean_ends import Register, Row, judged

STALE: List[Row] = [(0, "invoke", "write", 5), (0, "ok", "write", 5), (1, "invoke", "write", 6), (1, "ok", "write", 6),
                    (2, "invoke", "read", None), (2, "ok", "read", 5)]
# The read needs the write of 5, which came last, or before the write of 6.
TWO: List[Row] = [(0, "invoke", "write", 5), (1, "invoke", "write", 6), (2, "invoke", "read", None), (1, "ok", "write", 6),
                  (2, "ok", "read", 5)]
# The write of 6 began behind the return of the write of 5.
LATE: List[Row] = [(0, "invoke", "read", None), (1, "invoke", "write", 5), (1, "ok", "write", 5), (2, "invoke", "write", 6),
                   (2, "info", "write", 6), (0, "ok", "read", 6), (3, "invoke", "read", None), (3, "ok", "read", 5)]


def after(rows: List[Row], budget: int = 9) -> Register:
    return judged(Register(budget), rows)


class LeanEnds(unittest.TestCase):
    def test_illegal(self) -> None:
        self.assertEqual(after(STALE).status, "dead 5")
        self.assertEqual(after(TWO + [(0, "fail", "write", 5)]).status, "dead 5")
        self.assertEqual(after(LATE).status, "dead 7")

    def test_counts(self) -> None:
        self.assertEqual(len(after(STALE[:4]).ends), 1)
        self.assertEqual({end.state for end in after(TWO).ends}, {5, 6})
        self.assertEqual(after(TWO + [(0, "ok", "write", 5)], 1).status, "over 5")
        self.assertEqual(after(TWO + [(0, "ok", "write", 5)], 2).status, "alive")

    def test_open_and_timed_out_writes_are_one_end(self) -> None:
        rows = [(op, kind, "write", op) for op in range(20) for kind in ("invoke", "info" if op % 2 else "none")]
        register = after([row for row in rows if row[1] != "none"], 1)
        self.assertEqual((register.status, len(register.ends)), ("alive", 1))

    def test_writes_that_return_one_after_another(self) -> None:
        register = Register(20)
        for op in range(20):
            register.invoke(op, "write", op)
        counts = []
        for op in range(20):
            register.complete(20 + op, op, "ok", None)
            counts.append(len(register.ends))
        self.assertEqual(counts[:2], [1, 2])
        self.assertEqual((max(counts), register.status), (20, "alive"))


if __name__ == "__main__":
    unittest.main()
