"""A live test over several programs: its objects, its verdict, and what it says of what was not judged."""
from __future__ import annotations

import asyncio
import collections
import random
import re
import threading
import time
import unittest
from typing import Dict, List, Optional, Set, Union

from jepmon import Failed, Illegal, LongMonitor, Refused, Unknown
from jepmon.live.values import Value
from jepmon.long import Handle, LongObject
from tests.python.monitored import Monitored


class Store:
    """Registers by name. From a number of writes on, reads answer the first value of each."""

    def __init__(self, right_writes: float = float("inf")) -> None:
        self.lock = threading.Lock()
        self.left = right_writes
        self.held: Dict[str, int] = {}
        self.first: Dict[str, int] = {}
        self.names: Set[str] = set()
        self.value = 0

    def next_value(self) -> int:
        with self.lock:
            self.value += 1
            return self.value

    def put(self, name: str, value: int) -> None:
        with self.lock:
            self.left -= 1
            self.names.add(name)
            self.held[name] = value
            self.first.setdefault(name, value)

    def get(self, name: str) -> Optional[int]:
        with self.lock:
            return self.held.get(name) if self.left > 0 else self.first.get(name)


class Long(Monitored):
    def work(self, monitor: LongMonitor, store: Store, operations: int, threads: int = 1, handles: int = 3, timeouts: float = 0.0) -> None:
        registers = [monitor.fresh() for _ in range(handles)]

        def client(number: int) -> None:
            draws = random.Random(number)
            for _ in range(operations):
                register = draws.choice(registers)
                if draws.random() < 0.5:
                    value = store.next_value()
                    with register.write(value) as op:
                        store.put(op.name, value)
                        if draws.random() < timeouts:
                            raise TimeoutError
                else:
                    with register.read() as op:
                        op.value = store.get(op.name)

        monitor.run(client, threads)

    def test_over_several_programs(self) -> None:
        store, names = Store(), []  # type: Store, List[str]
        with LongMonitor(self.program, events=60, out=self.room, forget=names.append) as monitor:
            self.work(monitor, store, 300)
            self.assertGreaterEqual(monitor.parts, 6)
        counts = monitor.counts
        self.assertEqual(sum(counts["read"].values()) + sum(counts["write"].values()), 300)
        self.assertEqual((monitor.close(), monitor.close(), monitor.unjudged, monitor.dropped), ("legal", "legal", 0, 0))
        self.assertEqual(len(names), len(set(names)), "no name is met twice")
        self.assertLessEqual(store.names, set(names), "each object is over")
        self.assertEqual(monitor.length, 2 * (300 + len(names)), "each object begins with a write")
        assert monitor.folder is not None
        self.assertEqual(self.verdict_by(monitor.folder), "legal")
        self.assertEqual((monitor.folder / "verdict.txt").read_text(), "legal\n")
        counted = f"events: {monitor.length} in {monitor.parts} parts, on {len(names)} objects\n"
        self.assertIn(counted, (monitor.folder / "counts.txt").read_text())
        parts = (monitor.folder / "parts.txt").read_text().splitlines()
        self.assertEqual(len(parts), monitor.parts)
        self.assertTrue(all(line.endswith(" objects: legal") for line in parts), parts)

    def test_a_fault_late_in_the_test(self) -> None:
        """Its first reply that is not legal is raised with the part and the name of the object, and the folder says why."""
        with self.assertRaises(Illegal) as caught:
            with LongMonitor(self.program, events=100, out=self.room) as monitor:
                self.work(monitor, Store(right_writes=500), 2000, threads=3)
        fault = caught.exception
        assert monitor.folder is not None and fault.key is not None
        part = fault.folder.rpartition("/")[2]
        self.assertGreater(int(part[-4:]), 5)
        self.assertEqual(monitor.close().split("\n")[0], f"{fault.reply} of {part}")
        self.assertRegex(fault.hint, f"key {fault.key} of {part} is the object [0-9a-f]+-[0-9]+$")
        name = fault.hint.split()[-1]
        self.assertIn(f"{fault.key} is {name!r}\n", (monitor.folder / part / "names.txt").read_text())
        self.assertIn(name, (monitor.folder / part / "cause.txt").read_text())
        self.assertTrue((monitor.folder / part / "page.html").exists())
        self.assertEqual((monitor.folder / "verdict.txt").read_text(), monitor.close() + "\n")
        self.assertEqual(self.verdict_by(monitor.folder), monitor.close().split("\n")[0])

    def test_two_programs_that_are_illegal(self) -> None:
        """The first finding has the verdict, also if the parts are judged again; the second finding is named with it."""
        monitor = LongMonitor(self.program, concurrency=1, out=self.room)
        register = monitor.fresh()
        reads = [register.read().__enter__() for _ in range(2)]  # on an object each, of a program each
        faults = []
        for value, read in enumerate(reversed(reads), 5):
            read.value = value
            with self.assertRaises(Illegal) as caught:
                read.__exit__(None, None, None)
            faults.append(caught.exception)
        self.assertEqual([fault.folder[-9:] for fault in faults], ["part-0002", "part-0002"])
        self.assertEqual(monitor.close(), "illegal key 0 index 3 of part-0002\nalso illegal key 0 index 3 of part-0001")
        assert monitor.folder is not None
        self.assertEqual(self.verdict_by(monitor.folder), "illegal key 0 index 3 of part-0002")
        self.assertEqual((monitor.folder / "verdict.txt").read_text(), monitor.close() + "\n")

    def test_a_lock_that_is_held_while_its_program_is_replaced(self) -> None:
        held: Dict[str, bool] = {}

        def take(name: str) -> None:
            if held.get(name):
                raise Failed
            held[name] = True

        with LongMonitor(self.program, events=30, concurrency=5) as monitor:
            lock, register = monitor.fresh("mutex"), monitor.fresh()
            for _ in range(6):
                with lock.acquire() as op:
                    take(op.name)
                first = monitor.parts
                while monitor.parts == first:
                    with register.write(1):
                        pass
                with op.object.release() as given:
                    held[given.name] = False
                self.assertEqual((op.outcome, given.outcome, given.told, given.name), ("ok", "ok", True, op.name))
            with self.assertRaisesRegex(ValueError, "op.object.release"):
                lock.release()
        self.assertEqual(monitor.close(), "legal")
        with self.assertRaises(Illegal), LongMonitor(self.program) as monitor:
            lock = monitor.fresh("mutex")
            for _ in range(2):
                with lock.acquire():
                    pass

    def test_an_object_whose_program_was_closed(self) -> None:
        """Its further operations are not judged, and standard error says so."""
        monitor = LongMonitor(self.program, events=20, out=self.room)
        with self.assertRaises(Unknown) as caught, monitor:
            lock, register = monitor.fresh("mutex"), monitor.fresh()
            with lock.acquire() as op:
                pass
            while not op.object.is_over:
                with register.write(1):
                    pass
            with op.object.release() as given:
                pass
            with op.object.acquire() as taken:
                taken.fail()
            with self.assertRaises(KeyError), op.object.release():
                raise KeyError
            self.assertEqual((given.outcome, given.told, taken.outcome), ("ok", False, "fail"))
            self.assertNotIn(op.object, lock.objects)
        self.assertEqual(monitor.unjudged, 3)
        said = "not judged: 3 operations, which began on an object after its judging had ended"
        self.assertEqual(monitor.close(), f"legal\n{said}")
        self.assertEqual(str(caught.exception), f"unknown: not all was judged ({monitor.folder})\n{said}")
        assert monitor.folder is not None
        self.assertEqual((monitor.folder / "verdict.txt").read_text(), f"legal\n{said}\n")
        self.assertIn(said, (monitor.folder / "counts.txt").read_text())

    def test_objects_over_their_budget(self) -> None:
        """Each is left and counted, and the verdict is unknown."""
        monitor = LongMonitor(self.program, budget=3, events=400, by_ends=True, out=self.room)
        with self.assertRaises(Unknown) as caught, monitor:
            registers = [monitor.fresh() for _ in range(3)]
            for register in registers:
                with register.write(1) as first, register.write(2) as second:
                    pass
                self.assertEqual((first.name, first.told, second.told), (second.name, True, True))
                with register.write(3) as third:
                    pass
                self.assertNotEqual(third.name, first.name)
            self.assertEqual(monitor.dropped, 3)
        said = monitor.close().split("\n")
        self.assertRegex(said[0], "^unknown key [0-9]+ index [0-9]+ of part-0001$")
        self.assertEqual(caught.exception.reply.split("\n"), said)
        self.assertRegex(said[1], f"^not judged to their end: 3 objects that were over their budget, such as {said[0]}: ")
        self.assertIsNone(monitor.failure)
        assert monitor.folder is not None
        self.assertEqual(self.verdict_by(monitor.folder), said[0])

    def test_writes_leave_an_object_with_timeouts_and_reads_stay(self) -> None:
        """So what a server loses at a kill is seen, although each request to it timed out then."""
        held: Dict[str, int] = {}
        with self.assertRaises(Illegal) as caught:
            with LongMonitor(self.program, expected=(TimeoutError,)) as monitor:
                register = monitor.fresh()
                for value in range(100):
                    with register.write(value) as op:
                        held[op.name] = value
                        if 40 <= value < 50:
                            raise TimeoutError
                    if value == 50:
                        self.assertGreaterEqual(len(register.objects), 2)
                        held.clear()
                    with register.read() as op:
                        op.value = held.get(op.name)
        self.assertIn("ABSENT]", caught.exception.events[-1])

    def test_a_queue_is_read_to_its_end(self) -> None:
        held: Dict[str, List[int]] = collections.defaultdict(list)
        received: List[Value] = []

        def receive(queue: Union[Handle, LongObject]) -> bool:
            with queue.dequeue() as op:
                op.value = held[op.name].pop(0) if held[op.name] else None
            if op.outcome == "ok":
                received.append(op.value)
            return op.outcome == "ok"

        with LongMonitor(self.program, model="fifo-queue", events=100) as monitor:
            queue = monitor.fresh()
            for value in range(300):
                with queue.enqueue(value) as op:
                    held[op.name].append(value)
                receive(queue)
                receive(queue)
            for one in queue.objects:
                while receive(one):
                    pass
            self.assertGreater(monitor.parts, 5)
        self.assertEqual(sorted(map(str, received)), sorted(map(str, range(300))), "no message was left in a queue that was replaced")
        self.assertEqual(monitor.close(), "legal")

    def test_an_object_is_replaced_after_changes(self) -> None:
        store, written = Store(), collections.Counter()  # type: Store, collections.Counter[str]
        with LongMonitor(self.program, names="r") as monitor:
            register = monitor.fresh(changes=7)
            for value in range(70):
                with register.write(value) as op:
                    store.put(op.name, value)
                    written[op.name] += 1
            with self.assertRaisesRegex(ValueError, "^changes is a number from 1 on, not 0$"):
                monitor.fresh(changes=0)
        self.assertEqual(written, {f"r{number}": 7 for number in range(10)})

    def test_a_queue_that_refuses_is_not_found_empty(self) -> None:
        """It is asked again until it answers that it is empty."""
        held: Dict[str, List[int]] = collections.defaultdict(list)
        with LongMonitor(self.program, model="unordered-queue", failed=(ConnectionError,)) as monitor:
            queue = monitor.fresh(changes=1)
            with queue.enqueue(1) as op:
                held[op.name].append(1)
            for _ in range(5):
                with queue.dequeue():
                    raise ConnectionRefusedError
            with queue.dequeue() as op:
                op.value = held[op.name].pop()
        self.assertEqual((op.outcome, op.value, monitor.close()), ("ok", 1, "legal"))

    def test_a_client_is_the_same_in_each_part(self) -> None:
        with LongMonitor(self.program, events=60, out=self.room) as monitor:
            registers = [monitor.fresh() for _ in range(3)]
            turn = threading.Barrier(3)

            def client(number: int) -> None:
                turn.wait(60)
                for value in range(60):
                    with registers[number].write(value * 10 + number):
                        pass

            monitor.run(client, 3)
        assert monitor.folder is not None
        writes = [line for path in monitor.folder.glob("part-*/history.edn") for line in path.read_text().splitlines()
                  if ":type :invoke" in line and "nil" not in line and str(-(1 << 63)) not in line and "ABSENT" not in line]
        self.assertEqual(len(writes), 180)
        self.assertEqual([line for line in writes if not re.search(r":process (\d), .*\1\], :time", line)], [])

    def test_a_queue_that_nobody_drains(self) -> None:
        with LongMonitor(self.program, model="unordered-queue", events=30, unknown="drop") as monitor:
            queue = monitor.fresh()
            while monitor.parts < 4:
                with queue.enqueue(monitor.length):
                    pass
        self.assertEqual(monitor.close(), "legal\nnot judged to their end: 2 queues that may still hold messages; let consumers keep up")

    def test_hundreds_of_clients(self) -> None:
        """More operations are open at once than one program takes."""
        store, most, gate = Store(), [0], threading.Event()
        with LongMonitor(self.program, events=3000) as monitor:
            registers = [monitor.fresh() for _ in range(40)]
            open_now: Set[int] = set()

            def client(number: int) -> None:
                for value in range(3):
                    with registers[(number + value) % 40].write(number * 10 + value) as op:
                        open_now.add(number)
                        most[0] = max(most[0], len(open_now))
                        if value == 0:
                            if len(open_now) == 300:
                                gate.set()
                            gate.wait(60)
                        store.put(op.name, number * 10 + value)
                        open_now.discard(number)
                    with registers[(number * 7 + value) % 40].read() as op:
                        op.value = store.get(op.name)

            monitor.run(client, 300)
        self.assertEqual(most[0], 300)
        self.assertEqual((monitor.close(), monitor.unjudged, monitor.dropped), ("legal", 0, 0))
        self.assertEqual(monitor.counts, {"write": {"ok": 900}, "read": {"ok": 900}})
        self.assertGreaterEqual(monitor.parts, 300 // 48)

    def test_coroutines(self) -> None:
        async def client(monitor: LongMonitor, store: Store, number: int) -> None:
            register = monitor.fresh()
            for value in range(5):
                with register.write(value) as op:
                    await asyncio.sleep(0)
                    store.put(op.name, value)
                with register.read() as op:
                    await asyncio.sleep(0)
                    op.value = store.get(op.name)

        async def clients() -> None:
            with LongMonitor(self.program, events=200) as monitor:
                store = Store()
                await asyncio.gather(*(client(monitor, store, number) for number in range(100)))
            self.assertEqual(monitor.close(), "legal")

        asyncio.run(clients())

    def test_faults_are_noted_in_each_part(self) -> None:
        with LongMonitor(self.program, events=20, out=self.room) as monitor:
            register = monitor.fresh()
            with monitor.fault("cut n1 off"):
                while monitor.parts < 3:
                    with register.write(1):
                        pass
            monitor.note("kill n1")
        assert monitor.folder is not None
        notes = [(monitor.folder / f"part-000{number}" / "history.edn").read_text() for number in (1, 2, 3)]
        self.assertEqual([text.count(":begin-fault") for text in notes], [1, 1, 1])
        self.assertEqual(notes[2].count(":end-fault"), 1)
        self.assertEqual(notes[2].count('"kill n1"'), 1)

    def test_a_client_that_raises(self) -> None:
        ended: List[BaseException] = []

        def client(number: int) -> None:
            try:
                while True:
                    with register.write(number):
                        if number == 1:
                            raise KeyError
            except Refused as fault:
                ended.append(fault)
                raise

        with LongMonitor(self.program, events=50) as monitor:
            register = monitor.fresh()
            with self.assertRaises(KeyError):
                monitor.run(client, 3)
            self.assertEqual(len(ended), 2)
            with register.write(5):
                pass
        self.assertEqual(monitor.close(), "legal")

    def test_a_store_that_waits_for_a_release(self) -> None:
        """Acquires that wait in the store do not take the threads that a release needs."""
        locks: Dict[str, threading.Lock] = {}
        made = threading.Lock()
        with LongMonitor(self.program, concurrency=4) as monitor:
            handles = [monitor.fresh("mutex") for _ in range(3)]

            def client(number: int) -> None:
                for turn in range(3):
                    with handles[(number + turn) % 3].acquire() as op:
                        with made:
                            lock = locks.setdefault(op.name, threading.Lock())
                        lock.acquire()
                    time.sleep(0.001)
                    with op.object.release():
                        lock.release()

            monitor.run(client, 20)
        self.assertEqual(monitor.close(), "legal")


if __name__ == "__main__":
    unittest.main()
