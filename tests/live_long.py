"""Many threads at once: of one program, whose lines go together, and of one program after another."""
import random
import threading
from typing import Dict, List, Optional, Set

from live_base import PROGRAM, raised
from jepmon import Failed, Illegal, LongMonitor, Monitor


class Objects:
    """Registers, locks, sets and queues by name, all right except for the named ones."""

    def __init__(self) -> None:
        self.lock = threading.Lock()
        self.registers: Dict[str, int] = {}
        self.held: Set[str] = set()
        self.sets: Dict[str, Set[int]] = {}
        self.queues: Dict[str, List[int]] = {}
        self.forgets: Optional[str] = None  # the next register whose name begins so loses what it has

    def put(self, name: str, value: int) -> None:
        with self.lock:
            self.registers[name] = value

    def get(self, name: str) -> Optional[int]:
        with self.lock:
            if self.forgets is not None and name.startswith(self.forgets) and name in self.registers:
                self.forgets = None
                del self.registers[name]
            return self.registers.get(name)

    def take(self, name: str) -> None:
        with self.lock:
            if name in self.held:
                raise Failed
            self.held.add(name)

    def give(self, name: str) -> None:
        with self.lock:
            self.held.discard(name)

    def add(self, name: str, value: int) -> None:
        with self.lock:
            self.sets.setdefault(name, set()).add(value)

    def members(self, name: str) -> Set[int]:
        with self.lock:
            return set(self.sets.get(name, ()))

    def send(self, name: str, value: int) -> None:
        with self.lock:
            self.queues.setdefault(name, []).append(value)

    def receive(self, name: str) -> Optional[int]:
        with self.lock:
            queue = self.queues.get(name)
            return queue.pop(0) if queue else None

    def forget(self, name: str) -> None:
        with self.lock:
            self.registers.pop(name, None)
            self.held.discard(name)
            self.sets.pop(name, None)
            self.queues.pop(name, None)


def fifty_threads_of_one_program() -> None:
    """Each program judges its events in the order in which they were sent: 50 registers, each of one writer and of readers."""
    store = Objects()

    def client(number: int) -> None:
        draws = random.Random(number)
        for value in range(40):
            with monitor.write(number, value):
                store.put(str(number), value)
            key = draws.randrange(50)
            with monitor.read(key) as op:
                op.value = store.get(str(key))

    with Monitor(PROGRAM) as monitor:
        monitor.run(client, 50)
    assert monitor.close() == "legal" and monitor.length == 2 * (50 * 80 + 50), monitor.length
    assert monitor.counts == {"write": {"ok": 2000}, "read": {"ok": 2000}}, monitor.counts


def clients_of_each_kind(monitor: LongMonitor, store: Objects, threads: int, rounds: int) -> None:
    registers = [monitor.fresh() for _ in range(threads // 5)]
    locks, sets = [monitor.fresh("mutex") for _ in range(threads // 10)], [monitor.fresh("set") for _ in range(threads // 10)]
    queues = [monitor.fresh("fifo-queue") for _ in range(threads // 10)]

    def client(number: int) -> None:
        draws = random.Random(number)
        for value in range(number * 1000, number * 1000 + rounds):
            with draws.choice(registers).write(value) as op:
                store.put(op.name, value)
                if draws.random() < 0.02:
                    raise TimeoutError
            with draws.choice(registers).read() as op:
                op.value = store.get(op.name)
            with draws.choice(locks).acquire() as taken:
                store.take(taken.name)
            if taken.outcome == "ok":
                with taken.object.release() as op:
                    store.give(op.name)
            with draws.choice(sets).add(value % 50) as op:
                store.add(op.name, value % 50)
            with draws.choice(sets).read() as op:
                op.value = store.members(op.name)
            with draws.choice(queues).enqueue(value) as op:
                store.send(op.name, value)
            for _ in range(2):
                with draws.choice(queues).dequeue() as op:
                    op.value = store.receive(op.name)

    monitor.run(client, threads)


def three_hundred_clients_of_many_programs() -> None:
    store = Objects()
    with LongMonitor(PROGRAM, events=2000, expected=(TimeoutError,), forget=store.forget, unknown="drop") as monitor:
        clients_of_each_kind(monitor, store, 300, 8)
    verdict = monitor.close().split("\n")
    assert verdict[0] == "legal" or monitor.dropped and verdict[0].startswith("unknown "), verdict
    assert monitor.failure is None and monitor.parts > 10, (verdict, monitor.parts)
    counts = monitor.counts
    assert sum(counts["write"].values()) == 2400 and sum(counts["read"].values()) == 4800, counts
    assert not store.registers and not store.queues, "each object was said to be over"


def a_fault_among_three_hundred_clients() -> None:
    store = Objects()

    def acts() -> None:
        with LongMonitor(PROGRAM, events=2000, expected=(TimeoutError,)) as monitor:
            clients_of_each_kind(monitor, store, 300, 3)
            store.forgets = ""
            clients_of_each_kind(monitor, store, 300, 3)

    error = raised(Illegal, acts)
    assert isinstance(error, Illegal) and "ABSENT]" in error.events[-1] and " is the object " in error.hint, error


TESTS = [fifty_threads_of_one_program, three_hundred_clients_of_many_programs, a_fault_among_three_hundred_clients]
