"""Keys that writes leave and reads do not."""
from __future__ import annotations

import random
import unittest
from typing import Counter, Dict, Set, cast

from jepmon import Illegal, Keys, Monitor, Unknown
from jepmon.live.room import room_of
from tests.python.monitored import Monitored, Server


class Counts:
    """Stands for a monitor, where keys ask what has come of them."""

    def __init__(self) -> None:
        self.set_aside: Dict[int, Unknown] = {}
        self.equal_values: Set[int] = set()
        self.timed_out: Counter[int] = Counter()
        self.open: Counter[int] = Counter()

    def timeouts(self, key: int) -> int:
        return self.timed_out[key]

    def pending(self, key: int) -> int:
        return self.open[key]


class Drawn(unittest.TestCase):
    def setUp(self) -> None:
        self.counts, self.draws = Counts(), random.Random(1)

    def keys(self, count: int = 1, limit: int = 3, first: int = 0, most: int = 6) -> Keys:
        return Keys(cast(Monitor, self.counts), count, limit, first, most)

    def test_writes_leave_a_key_at_the_limit(self) -> None:
        keys = self.keys(count=2, first=10)
        self.assertEqual({keys.write_key(self.draws) for _ in range(50)}, {10, 11})
        self.counts.timed_out[10] = 2
        self.assertEqual({keys.write_key(self.draws) for _ in range(50)}, {10, 11})
        self.counts.timed_out[10] = 3
        self.assertEqual({keys.write_key(self.draws) for _ in range(50)}, {12, 11})
        self.assertEqual(keys.used, [10, 11, 12])

    def test_reads_stay(self) -> None:
        keys = self.keys(count=2)
        self.counts.timed_out[0] = 3
        keys.write_key(self.draws)
        drawn = Counter(keys.read_key(self.draws) for _ in range(400))
        self.assertEqual(set(drawn), {0, 1, 2})
        self.assertGreater(drawn[0], 150, "half of the reads are of keys that writes have left")

    def test_reads_need_no_write_before(self) -> None:
        self.assertEqual(self.keys(first=7).read_key(), 7)

    def test_a_dropped_key_is_left_by_reads_too(self) -> None:
        keys = self.keys()
        self.counts.set_aside[0] = Unknown("unknown key 0 index 9")
        self.assertEqual(keys.write_key(), 1)
        self.assertEqual({keys.read_key(self.draws) for _ in range(50)}, {1})
        self.assertEqual(keys.used, [0, 1])

    def test_a_key_without_room_is_given_where_there_is_no_other(self) -> None:
        keys = self.keys(count=2)
        self.counts.open[0], self.counts.timed_out[0] = 4, 2
        self.assertLess(Counter(keys.read_key(self.draws) for _ in range(400))[0], 20)
        self.counts.open[1] = 7
        self.assertEqual({keys.write_key(self.draws) for _ in range(50)}, {0}, "the one with the least at once")

    def test_a_key_with_many_timeouts_is_read_by_one_at_a_time(self) -> None:
        keys = self.keys()
        self.counts.timed_out[0] = 7
        keys.write_key()
        self.assertIn(0, {keys.read_key(self.draws) for _ in range(50)})

    def test_its_own_draws_are_the_same_each_time(self) -> None:
        drawn = [[self.keys(count=5).write_key() for _ in range(3)] for _ in range(2)]
        self.assertEqual(drawn[0], drawn[1])

    def test_numbers_out_of_their_limits(self) -> None:
        for count, limit, first, most in ((0, 3, 0, 6), (1, 0, 0, 6), (1, 3, 0, 0), (1, 3, -1, 6), (2, 3, 65535, 6)):
            with self.assertRaises(ValueError):
                self.keys(count, limit, first, most)

    def test_the_room_is_that_of_the_kind(self) -> None:
        """A register has room for ten, beside all that has timed out, and a set for all that a program takes; by ends six, with these."""
        for kind, timeouts, pending, is_full in (("wide-register", 7, 9, False), ("wide-register", 7, 10, True), ("wide-set", 900, 63, False),
                                                 ("register", 2, 3, False), ("register", 2, 4, True), ("mutex", 7, 5, True)):
            with self.subTest(kind=kind, timeouts=timeouts, pending=pending):
                room = room_of(kind)
                self.assertEqual((room.holds(pending, timeouts), room.is_left(timeouts)), (not is_full, False))
        self.assertTrue(room_of("wide-register").is_left(8) and room_of("fifo-queue").is_left(3))

    def test_no_key_is_left(self) -> None:
        keys = self.keys(first=65535)
        self.counts.timed_out[65535] = 3
        with self.assertRaisesRegex(ValueError, "each key from 65535 to 65535 has had 3 timeouts: there is no new key left"):
            keys.write_key()


class Losses(Monitored):
    """A server that keeps nothing is killed: at the kill each key collects timeouts."""

    def test_it_is_found_where_reads_stay(self) -> None:
        with self.assertRaises(Illegal) as caught:
            with Monitor(self.program, failed=(ConnectionRefusedError,), expected=(OSError,)) as monitor:
                self.kill(monitor, stay=True)
        self.assertIn("ABSENT]", caught.exception.events[-1])

    def test_it_is_not_where_they_leave(self) -> None:
        """The purpose of Keys."""
        with Monitor(self.program, failed=(ConnectionRefusedError,), expected=(OSError,)) as monitor:
            self.kill(monitor, stay=False)
        self.assertEqual(monitor.close(), "legal")

    def kill(self, monitor: Monitor, stay: bool) -> None:
        server, keys, draws = Server(), monitor.keys(3), random.Random(1)
        for value in range(400):
            server.is_slow = 90 <= value < 120  # before it is down
            if value == 120:
                server.kill()
            server.is_up = not 120 <= value < 140
            with monitor.write(keys.write_key(draws), value) as op:
                server.put(op.key, value)
            with monitor.read(keys.read_key(draws) if stay else keys.write_key(draws)) as op:
                op.value = server.get(op.key)

    def test_the_budget_holds(self) -> None:
        """Whatever many clients do at once on one key, as long as `most` is kept."""
        with Monitor(self.program, expected=(OSError,)) as monitor:
            keys, draws = monitor.keys(3), random.Random(2)
            for value in range(0, 200, 4):
                with monitor.write(keys.write_key(draws), value), monitor.write(keys.write_key(draws), value + 1):
                    with monitor.write(keys.write_key(draws), value + 2), monitor.write(keys.write_key(draws), value + 3):
                        if value % 20 == 0:
                            raise TimeoutError
        self.assertEqual(monitor.close(), "legal")


if __name__ == "__main__":
    unittest.main()
