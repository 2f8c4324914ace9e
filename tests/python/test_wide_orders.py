"""The searches for an order of one key's operations: of random histories they find one where one is, by a search through all orders."""
from __future__ import annotations

import random
import subprocess
import time
import unittest
from typing import FrozenSet, Iterator, List, Sequence, Set, Tuple

from jepmon import program
from jepmon.history import Event, Operation, operations
from jepmon.history.kinds import REGISTERS
from jepmon.objects import START, State, rule
from jepmon.wide.confirmed import by_program
from jepmon.wide.fifo import Search as FifoSearch
from jepmon.wide.operation import Clock, Conflict, Op, Order, OutOfTime, front
from jepmon.wide.ordered import is_order
from jepmon.wide.solve import solve

from .histories import NAMES, Clients, Way

EACH = 200  # histories of each kind
WAYS = [Way(events=16, clients=3, wrong=0.05), Way(events=20, clients=4, values=2, wrong=0.05),
        Way(events=16, clients=4, values=100, crash=0.3), Way(events=14, clients=5, values=1, wrong=0.1), Way(events=14, clients=3, alien=0.05)]


def has_order(ops: List[Op], model: str) -> bool:
    """Whether there is an order, by a search through all."""
    seen: Set[Tuple[FrozenSet[int], State]] = set()

    def goes_on(left: List[Op], state: State) -> bool:
        if not any(op.is_done for op in left):
            return True
        place = frozenset(op.id for op in left), state
        if place in seen:
            return False
        seen.add(place)
        bound = min(op.completed for op in left)
        for op in (op for op in left if op.invoked < bound):
            for after, found in rule(model, op.name)(state, op.part):
                answers = op.is_done and op.name in ("read", "dequeue") and (op.answer is not None or model not in REGISTERS)
                if (not answers or found == op.answer) and goes_on([other for other in left if other is not op], after):
                    return True
        return False

    return goes_on(ops, START[model])


def events_of(*told: Tuple[str, int, str, object]) -> List[Event]:
    return [Event(index, kind, process, name, 0, part, 0, "", {})  # type: ignore[arg-type]
            for index, (kind, process, name, part) in enumerate(told)]


class Random(unittest.TestCase):
    def test_each_kind(self) -> None:
        for model in NAMES:
            chance = random.Random(model)
            found = {True: 0, False: 0}
            for number in range(EACH):
                way = WAYS[number % len(WAYS)]
                events = Clients(chance, way.clients).history(model, way, 0)
                end = chance.choice((events[-1].index, chance.choice(events).index)) if events else 0
                made = operations(events, way.clients)
                ops = front(made, end)
                with self.subTest(model=model, number=number):
                    answer = solve(model, ops, Clock(60, time.process_time))
                    self.assertEqual(isinstance(answer, Order), has_order(ops, model))
                    if isinstance(answer, Order):
                        cut = operations([event for event in events if event.index <= end], way.clients)
                        self.assertTrue(is_order(cut, model, answer.ids))
                    found[isinstance(answer, Order)] += 1
            self.assertGreater(min(found.values()), 2, model)


class Long(unittest.TestCase):
    def test_a_queue_that_holds_much(self) -> None:
        """The test of an order of many operations costs O(their changes)."""
        count = 5000
        told: List[Tuple[str, int, str, object]] = [(kind, 0, "enqueue", value) for value in range(count) for kind in ("invoke", "ok")]
        told += [(kind, 0, "dequeue", None if kind == "invoke" else value) for value in range(count) for kind in ("invoke", "ok")]
        made = operations(events_of(*told), 1)
        for model in ("fifo-queue", "unordered-queue"):
            answer = solve(model, front(made, 4 * count), Clock(60, time.process_time))
            assert isinstance(answer, Order)
            began = time.process_time()
            self.assertTrue(is_order(made, model, answer.ids))
            self.assertLess(time.process_time() - began, 2.0)


class Fronts(unittest.TestCase):
    def test_what_has_failed_is_left_out_and_what_is_open_need_not_have_taken_place(self) -> None:
        made = operations(events_of(("invoke", 0, "write", 1), ("invoke", 1, "write", 2), ("fail", 0, "write", 1), ("ok", 1, "write", 2),
                                    ("invoke", 1, "read", None)), 2)
        self.assertEqual([(op.id, op.is_done) for op in front(made, 4)], [(1, True), (4, False)])
        self.assertEqual([(op.id, op.is_done) for op in front(made, 1)], [(0, False), (1, False)])

    def test_what_the_object_does_not_have(self) -> None:
        made = operations(events_of(("invoke", 0, "enqueue", 1), ("ok", 0, "enqueue", 1)), 1)
        self.assertEqual(solve("set", front(made, 1), Clock(9)), Conflict([0]))
        self.assertEqual(solve("set", front(made, 0), Clock(9)), Order([]))

    def test_reads_of_nil_stand_in_the_order(self) -> None:
        made = operations(events_of(("invoke", 0, "write", 1), ("ok", 0, "write", 1), ("invoke", 0, "read", None), ("ok", 0, "read", None),
                                    ("invoke", 0, "write", 2), ("ok", 0, "write", 2)), 1)
        self.assertEqual(solve("register", front(made, 5), Clock(9)), Order([0, 2, 4]))

    def test_out_of_time(self) -> None:
        events = Clients(random.Random(1), 4).history("fifo-queue", Way(events=4000, clients=4), 0)
        with self.assertRaises(OutOfTime):
            solve("fifo-queue", front(operations(events, 4), events[-1].index), Clock(0))

    def test_a_long_queue_needs_no_choice(self) -> None:
        events = Clients(random.Random(2), 20).history("fifo-queue", Way(events=2000, clients=20, values=1 << 40, crash=0), 0)
        search = FifoSearch(front(operations(events, 20), events[-1].index), Clock(60, time.process_time))
        self.assertIsInstance(search.run(), Order)


def has_confirm() -> bool:
    try:
        words = [program.find_program(), "confirm", "--help"]
        return subprocess.run(words, stdout=subprocess.DEVNULL, stderr=subprocess.DEVNULL, check=False).returncode == 0
    except (OSError, program.ProgramError):
        return False


def some_orders(made: Sequence[Operation], model: str, chance: random.Random) -> Iterator[List[int]]:
    """An order, if one is found, else what has returned; and the same with one of them at another place. In a queue without an order no
    unreturned dequeue is in it, since two programs may find different values for it."""
    last = max((completion.index for _, completion, _ in made if completion is not None), default=-1)
    found = solve(model, front(made, last), Clock(60, time.process_time))
    returned = [operation.invocation.index for operation in made if operation.outcome == "ok"]
    order = found.ids if isinstance(found, Order) and model != "unordered-queue" else returned
    for _ in range(4):
        yield order
        order = list(order)
        if order:
            order.insert(chance.randrange(len(order)), order.pop(chance.randrange(len(order))))


@unittest.skipUnless(has_confirm(), "there is no program with the command confirm")
class Program(unittest.TestCase):
    """`jepmon confirm` and the stand-in say the same."""

    def test_each_kind(self) -> None:
        asked = program.find_program()
        for model in NAMES:
            chance = random.Random(model)
            said = {True: 0, False: 0}
            for number in range(20):
                way = WAYS[number % len(WAYS)]
                made = operations(Clients(chance, way.clients).history(model, way, 0), way.clients)
                for order in some_orders(made, model, chance):
                    with self.subTest(model=model, number=number, order=order):
                        told = by_program(made, program.Options(way.clients, model), order, asked, 60.0)
                        self.assertEqual(told, is_order(made, model, order))
                        said[bool(told)] += 1
            self.assertGreater(min(said.values()), 2, model)


class IsOrder(unittest.TestCase):
    """The stand-in says of an order what is wrong with it."""

    MADE = operations(events_of(("invoke", 0, "write", 1), ("ok", 0, "write", 1), ("invoke", 0, "read", None), ("invoke", 1, "write", 2),
                                ("ok", 0, "read", 2), ("info", 1, "write", 2), ("invoke", 0, "write", 3), ("fail", 0, "write", 3)), 2)

    def test_orders(self) -> None:
        self.assertTrue(is_order(self.MADE, "register", [0, 3, 2]))
        for wrong in ([0, 2, 3], [3, 0, 2], [0, 3], [3, 2], [0, 0, 3, 2], [0, 3, 2, 6], [0, 3, 2, 5], [2, 3, 0]):
            self.assertFalse(is_order(self.MADE, "register", wrong), wrong)
        self.assertFalse(is_order(self.MADE, "set", [0, 3, 2]))


if __name__ == "__main__":
    unittest.main()
