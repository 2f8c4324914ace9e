"""The operations of jepmon-test's clients on each kind of object, over several parts of a run, on servers in this process; and how it
counts lost messages."""
from __future__ import annotations

import collections
import random
import threading
import unittest
from typing import Any, Callable, Counter, DefaultDict, Deque, Dict, List, Optional, Set, Type
from unittest import mock

from jepmon.testing import Client, Node, Server
from jepmon.testing import run as test_run
from jepmon.testing.messages import Messages
from jepmon.testing.run import Given, Outcome, Test
from jepmon.testing.workloads import Queues
from tests.python.monitored import Monitored

SEED = 1


class Held:
    """The common parts of the clients of a run."""

    def __init__(self) -> None:
        self.lock = threading.Lock()
        self.registers: Dict[int, int] = {}
        self.locks: Set[int] = set()
        self.queues: DefaultDict[int, Deque[int]] = collections.defaultdict(collections.deque)
        self.sets: DefaultDict[int, Set[int]] = collections.defaultdict(set)
        self.changes: Counter[int] = collections.Counter()
        self.draws = random.Random(SEED)


HELD: List[Held] = []


class Right(Client):
    """One of a thousand requests times out, and half of these take place."""

    work = 0.0
    times_out = 0.001

    def __init__(self) -> None:
        self.held = HELD[-1]

    def done(self, what: Callable[[], Any]) -> Any:
        with self.held.lock:
            times_out = self.held.draws.random() < self.times_out
            value = None if times_out and self.held.draws.random() < 0.5 else what()
        if times_out:
            raise TimeoutError("no answer in time")
        return value

    def change(self, key: int, what: Callable[[], Any]) -> Any:
        self.held.changes[key] += 1
        return self.done(what)

    def write(self, key: int, value: int) -> None:
        self.change(key, lambda: self.held.registers.__setitem__(key, value))

    def cas(self, key: int, old: int, new: int) -> bool:
        def swap() -> bool:
            is_so = self.held.registers.get(key) == old
            if is_so:
                self.held.registers[key] = new
            return is_so
        return bool(self.change(key, swap))

    def acquire(self, key: int) -> bool:
        def take() -> bool:
            is_free = key not in self.held.locks
            self.held.locks.add(key)
            return is_free
        return bool(self.change(key, take))

    def release(self, key: int) -> bool:
        self.done(lambda: self.held.locks.discard(key))
        return True

    def add(self, key: int, value: int) -> None:
        self.change(key, lambda: self.held.sets[key].add(value))

    def enqueue(self, key: int, value: int) -> None:
        self.change(key, lambda: self.held.queues[key].append(value))

    def dequeue(self, key: int) -> Optional[int]:
        value: Optional[int] = self.done(lambda: self.held.queues[key].popleft() if self.held.queues[key] else None)
        return value


class OfRegisters(Right):
    def read(self, key: int) -> Optional[int]:
        value: Optional[int] = self.done(lambda: self.held.registers.get(key))
        return value


class OfSets(Right):
    def read(self, key: int) -> List[int]:
        value: List[int] = self.done(lambda: sorted(self.held.sets[key]))
        return value


class Losing(Right):
    """Loses each hundredth message, which it has taken."""

    times_out = 0.0

    def enqueue(self, key: int, value: int) -> None:
        if value % 100:
            super().enqueue(key, value)


class Twice(Right):
    """Gives each hundredth message twice."""

    times_out = 0.0

    def enqueue(self, key: int, value: int) -> None:
        super().enqueue(key, value)
        if value % 100 == 0:
            super().enqueue(key, value)


class Stale(OfRegisters):
    """Forgets what was written, late in the run."""

    def read(self, key: int) -> Optional[int]:
        return None if key > 40 else super().read(key)


class InThisProcess(Server):
    objects: "Dict[str, Type[Client]]" = {"register": OfRegisters, "cas-register": OfRegisters, "set": OfSets, "mutex": Right,
                                          "fifo-queue": Right, "unordered-queue": Right}

    def command(self, node: Node) -> List[str]:
        return ["sleep", "600"]

    def ready(self, node: Node) -> None:
        """It always is."""

    def begun(self) -> None:
        HELD.append(Held())

    def client(self, number: int) -> Client:
        return self.objects[self.model]()


class WrongQueue(InThisProcess):
    objects = {"unordered-queue": Losing}


class TwiceTaken(InThisProcess):
    objects = {"unordered-queue": Twice}


class WrongRegister(InThisProcess):
    objects = {"register": Stale}


class Works(Monitored):
    def ran(self, server: Type[Server], model: str, seconds: float = 1.0, keep: Optional[int] = None, clients: int = 5,
            parts: int = 1) -> Outcome:
        """A run of some seconds; of more, if the machine is so busy that it then has no verdict, or fewer parts than these."""
        for longer in (1, 4, 16):
            outcome = self.ran_once(server, model, longer * seconds, keep, clients)
            if outcome.verdict and outcome.parts >= parts:
                break
        return outcome

    def ran_once(self, server: Type[Server], model: str, seconds: float, keep: Optional[int], clients: int) -> Outcome:
        given = Given(server, model, "", seconds, clients, 5, SEED, "none", 0.0, 1, "auto", 20, 0.0, str(self.room / "runs"), keep)
        with mock.patch.object(test_run, "EVENTS", 600), mock.patch.dict("os.environ", {"JEPMON": self.program}):
            return Test(given, lambda seconds, monitor, strikes: None).run()

    def test_each_kind_goes_on_over_parts(self) -> None:
        for model in InThisProcess.objects:
            with self.subTest(model):
                outcome = self.ran(InThisProcess, model, parts=3)
                self.assertEqual((outcome.verdict, outcome.status, outcome.reason), ("legal", 0, ""))
                self.assertGreater(outcome.parts, 2)
                self.assertEqual(outcome.not_judged, [])
                self.assertEqual(self.verdict_by(outcome.folder), "legal")
                most = {"set": 40, "mutex": 400, "fifo-queue": 300, "unordered-queue": 300}.get(model, 200)
                self.assertLessEqual(max(HELD[-1].changes.values()), most + 5)

    def test_where_not_all_was_judged_the_test_does_not_end_well(self) -> None:
        given = Given(InThisProcess, "register", "", 1.0, 1, 1, SEED, "none", 0.0, 1, "auto", 1, 0.0, str(self.room), None)
        monitor = mock.Mock(counts={"read": Counter(ok=5), "write": Counter(ok=5)}, lost=None, length=20, parts=1, folder=self.room)
        work = mock.Mock(names=("read", "write"), lost=0)
        for said, verdict, status in (("legal", "legal", 0), ("legal\nnot judged: 1 operations, ..", "unknown", 2),
                                      ("unknown key 1 index 2 of part-0001\nnot judged to their end: ..", "unknown key 1 index 2 of part-0001", 2),
                                      ("illegal key 1 index 2 of part-0001\nnot judged: ..", "illegal key 1 index 2 of part-0001", 1)):
            monitor.close.return_value = said
            outcome = Test(given, mock.Mock())._outcome(monitor, work, "")
            self.assertEqual((outcome.verdict, outcome.status, outcome.not_judged), (verdict, status, said.split("\n")[1:]))

    def test_one_client(self) -> None:
        for model in InThisProcess.objects:
            with self.subTest(model):
                self.assertEqual(self.ran(InThisProcess, model, 0.3, clients=1).verdict, "legal")

    def test_a_queue_is_drained_at_the_end(self) -> None:
        self.ran(InThisProcess, "fifo-queue")
        self.assertEqual([key for key, queue in HELD[-1].queues.items() if queue], [])

    def test_what_is_lost_is_counted_over_parts(self) -> None:
        with mock.patch("jepmon.testing.workloads.Queues.SETTLING", 0.5):
            outcome = self.ran(WrongQueue, "unordered-queue")
        enqueued = outcome.counts["enqueue"]["ok"]
        self.assertEqual((outcome.status, outcome.lost), (1, enqueued // 100))
        said = f"lost {outcome.lost} messages: acknowledged, and never dequeued; this was counted, and is not proved"
        self.assertEqual((outcome.verdict, (outcome.folder / "verdict.txt").read_text()), (said, said + "\n"))
        listed = (outcome.folder / "lost.txt").read_text().splitlines()
        self.assertEqual(len(listed), 1 + outcome.lost)
        self.assertRegex(listed[1], r"^queue [0-9]+: [0-9]+ was acknowledged at [0-9.]+ s")
        self.assertIn("Lost messages", (outcome.folder / "run.html").read_text())

    def test_of_a_queue_that_was_not_drained_nothing_is_said_to_be_lost(self) -> None:
        outcome = self.ran(TwiceTaken, "unordered-queue", 30.0)
        self.assertRegex(outcome.verdict, "^illegal key ")
        self.assertEqual(outcome.lost, 0)

    def test_a_fault_in_a_later_part_is_found_with_its_cause(self) -> None:
        outcome = self.ran(WrongRegister, "register", 30.0, keep=1)
        self.assertRegex(outcome.verdict, r"^illegal key \d+ index \d+ of part-\d{4}$")
        self.assertEqual(outcome.status, 1)
        self.assertGreater(int(outcome.part.name[-4:]), 1)
        self.assertIn("ABSENT", (outcome.part / "cause.txt").read_text())
        self.assertTrue((outcome.part / "page.html").exists())
        kept = [path.name for path in outcome.folder.glob("part-*")]
        self.assertLessEqual(len(kept), 1 + 2)  # legal, and those that went on at the end


class OneProducer(unittest.TestCase):
    def test_it_consumes_mostly_where_many_messages_wait(self) -> None:
        for waiting, most in ((0, 0), (Queues.BACKLOG[1], 90)):
            work, draws = Queues(mock.Mock(), 2, 1), random.Random(SEED)
            with mock.patch.object(work, "backlog", return_value=waiting), mock.patch.object(work, "_wait"), \
                    mock.patch.object(work, "enqueue"), mock.patch.object(work, "dequeue") as dequeue:
                for _ in range(100):
                    work.step(0, None, draws, 0.5)
            self.assertLessEqual(dequeue.call_count, most)
            self.assertGreaterEqual(dequeue.call_count, most - 20)


class Counted(Monitored):
    def test_what_has_not_come(self) -> None:
        messages, one = Messages(), mock.Mock(is_over=False)
        for value in (1, 2, 3):
            messages.taken(one, value)
        self.assertEqual((messages.lost, messages.backlog(one), messages.missing), (3, 3, [one]))
        messages.came(one, 2)
        messages.may_have_come(one)
        self.assertEqual((messages.lost, messages.backlog(one)), (1, 2))
        messages.may_have_come(one)
        messages.may_have_come(one)
        self.assertEqual((messages.lost, messages.missing), (0, []))

    def test_one_that_comes_before_it_is_said_to_be_taken(self) -> None:
        messages, one = Messages(), mock.Mock(is_over=False)
        messages.came(one, 1)
        self.assertEqual(messages.lost, 0)
        messages.taken(one, 1)
        self.assertEqual((messages.lost, messages.backlog(one)), (0, 0))

    def test_queues_that_are_over_are_forgotten_unless_something_is_missing(self) -> None:
        messages, queues = Messages(), [mock.Mock(is_over=False) for _ in range(3)]
        for queue in queues[:2]:
            messages.taken(queue, 1)
        messages.came(queues[0], 1)
        queues[0].is_over = queues[1].is_over = True
        messages.taken(queues[2], 1)
        self.assertEqual(set(messages._accounts), set(queues[1:]))
        self.assertEqual(messages.lost, 2)


if __name__ == "__main__":
    unittest.main()
