"""Monitor and LongMonitor beside an atomic store: a right store is legal, one with an invented answer is illegal."""
import collections
import unittest
from typing import Callable, Counter

from .fuzz import has_program
from .live_truth import Live, of_long_monitor, of_monitor


@unittest.skipUnless(has_program(), "there is no program")
class LiveTruth(unittest.TestCase):
    def judge(self, run: Callable[[int], Live], count: int) -> None:
        seen: "Counter[Live]" = collections.Counter()
        for seed in range(count):
            live = run(seed)
            self.assertFalse(live.is_wrong, f"seed {seed}: {live}")
            seen[live] += 1
        self.assertGreater(seen[Live("legal", "legal")], count // 3)
        self.assertGreater(seen[Live("illegal", "illegal")], 0)

    def test_monitor(self) -> None:
        self.judge(of_monitor, 30)

    def test_long_monitor(self) -> None:
        self.judge(of_long_monitor, 10)
