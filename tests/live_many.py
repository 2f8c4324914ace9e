"""Many clients of one key: right objects of each model that has a wide kind are decided, and one wrong answer of each is found, with its cause.

Each load lasts a second. With --long it lasts a minute, and each wrong answer is planted ten times."""
import os
import pathlib
import random
import tempfile
import threading
import time
from typing import Callable, List, Optional, Set, Tuple

from live_base import PROGRAM, raised
from jepmon import Failed, Illegal, Monitor, Unknown
from jepmon.history.kinds import EVENTS, WIDE
from jepmon.program import wide_kinds

KEY = 7
CLIENTS = (5, 8, 12)
IS_LONG = bool(os.environ.get("JEPMON_LONG"))  # --long of python_live.py
SECONDS = 60.0 if IS_LONG else 1.0  # for each
TIMES = 10 if IS_LONG else 1  # that a wrong answer is planted
PLANTED = 0.3  # seconds after which one answer is wrong
PAUSE = 0.002  # seconds that the store takes at most, before and after an operation takes effect
PATIENCE = 60.0  # seconds more for the wrong answer, or for LEAST events, on a machine that does much else
LEAST = 200
BEHIND = 20  # changes that the wrong answer does not know
MEMBERS = 200  # of a set, since each read gives all of them
MOST = EVENTS - 1000  # events of a load
MODELS = [model for model, kind in WIDE.items() if kind in wide_kinds(PROGRAM)]
LACKING = [model for model in WIDE if model not in MODELS]


class OneKey:
    """A store of one object of a model, with one lock. It takes some time, so clients' operations overlap."""

    def __init__(self, model: str, plant: Optional[float] = None) -> None:
        self.lock, self.model, self.plant, self.begun = threading.Lock(), model, plant, time.monotonic()
        self.written: List[int] = []
        self.taken: List[int] = []  # of a queue
        self.next = 0
        self.wrong: Optional[int] = None  # the value that was answered wrongly, or left out

    def goes_on(self, end: float) -> bool:
        """Whether clients go on: to the end, and on a busy machine until the wrong answer was given."""
        now = time.monotonic()
        return now < end or self.plant is not None and self.wrong is None and now < end + PATIENCE

    def value(self) -> int:
        with self.lock:
            self.next += 1
            return self.next

    def put(self, value: int) -> None:
        with self.lock:
            self.written.append(value)

    def swap(self, old: int, new: int) -> bool:
        with self.lock:
            if not self.written or self.written[-1] != old:
                return False
            self.written.append(new)
            return True

    def is_due(self, changes: List[int]) -> bool:
        """Whether this answer is the wrong one. The caller has the lock."""
        wanted = self.plant is not None and self.wrong is None and len(changes) > 2 * BEHIND
        return wanted and time.monotonic() > self.begun + (self.plant or 0.0)

    def get(self) -> Optional[int]:
        with self.lock:
            if self.is_due(self.written):
                self.wrong = self.written[-BEHIND]
                return self.wrong
            return self.written[-1] if self.written else None

    def members(self) -> Set[int]:
        with self.lock:
            if self.is_due(self.written):
                self.wrong = self.written[-BEHIND]
                return set(self.written) - {self.wrong}
            return set(self.written)

    def take(self, draws: random.Random) -> Optional[int]:
        """A message; the wrong one has been taken before."""
        with self.lock:
            if self.is_due(self.taken):
                self.wrong = self.taken[-BEHIND]
                return self.wrong
            if not self.written:
                return None
            self.taken.append(self.written.pop(0 if self.model == "fifo-queue" else draws.randrange(len(self.written))))
            return self.taken[-1]


class Client:
    """Its operations on the key."""

    def __init__(self, monitor: Monitor, store: OneKey, number: int) -> None:
        self.monitor, self.store, self.draws = monitor, store, random.Random(number)
        self.seen: Optional[int] = None  # the last answer

    def step(self) -> None:
        model = self.store.model
        if model.endswith("queue"):
            (self.enqueue if self.draws.random() < 0.5 else self.dequeue)()
        elif self.draws.random() < 0.5 or model == "set" and self.store.next >= MEMBERS:
            self.read()
        elif model == "cas-register" and self.seen is not None and self.draws.random() < 0.6:
            self.cas(self.seen)
        else:
            self.change()

    def pause(self) -> None:
        time.sleep(self.draws.random() * PAUSE)

    def change(self) -> None:
        value = self.store.value()
        with (self.monitor.add if self.store.model == "set" else self.monitor.write)(KEY, value):
            self.pause()
            self.store.put(value)
            self.pause()

    def cas(self, old: int) -> None:
        value = self.store.value()
        with self.monitor.cas(KEY, old, value):
            self.pause()
            if not self.store.swap(old, value):
                raise Failed
            self.pause()

    def read(self) -> None:
        with self.monitor.read(KEY) as op:
            self.pause()
            op.value = answer = self.store.members() if self.store.model == "set" else self.store.get()
            self.pause()
        self.seen = answer if isinstance(answer, int) else None

    def enqueue(self) -> None:
        value = self.store.value()
        with self.monitor.enqueue(KEY, value):
            self.pause()
            self.store.put(value)
            self.pause()

    def dequeue(self) -> None:
        with self.monitor.dequeue(KEY) as op:
            self.pause()
            op.value = self.store.take(self.draws)
            self.pause()


def load(clients: int, store: OneKey, by_ends: bool = False, out: Optional[str] = None, seconds: float = SECONDS) -> Monitor:
    """Clients without think time until the time is up, or the verdict is not legal."""
    end = time.monotonic() + seconds
    monitor = Monitor(PROGRAM, model=store.model, by_ends=by_ends, out=out)

    def client(number: int) -> None:
        one = Client(monitor, store, number)
        while (store.goes_on(end) or monitor.length < LEAST and time.monotonic() < end + PATIENCE) and monitor.length < MOST:
            one.step()

    with monitor:
        monitor.run(client, clients)
    return monitor


def many_clients_of_one_object_are_decided() -> None:
    for model in MODELS:
        for clients in CLIENTS:
            monitor = load(clients, OneKey(model))
            assert monitor.close() == "legal", (model, clients, monitor.close())
            assert monitor.length >= LEAST, (model, clients, monitor.length)
            assert not monitor.equal_values, (model, clients, monitor.equal_values)


def by_ends_they_are_not() -> None:
    """The option turns the wide kinds off; so does a program without them, which the hint names."""
    for model in ("register", "set"):
        error = raised(Unknown, lambda: load(12, OneKey(model), by_ends=True))
        assert "does not have" not in str(error), str(error)
    for model in LACKING:
        error = raised(Unknown, lambda: load(12, OneKey(model)))
        assert f"does not have the kind wide-{model}" in str(error), str(error)


def a_wrong_answer_of_many_clients_is_illegal() -> None:
    """The event is that of the wrong answer, and the cause names the value."""
    for model in MODELS:
        for clients in CLIENTS:
            for _ in range(TIMES):
                store = OneKey(model, PLANTED)
                with tempfile.TemporaryDirectory() as out:
                    error = raised(Illegal, lambda: load(clients, store, out=out, seconds=1.0))
                    assert isinstance(error, Illegal) and error.index is not None
                    event, cause = found_in(pathlib.Path(out, "latest"), error.index)
                name, said = wanted(store)
                assert ":type :ok" in event and f":f :{name}" in event and said in cause, (model, clients, event, cause)
                assert model == "set" or f"[{KEY} {store.wrong}]" in event, (clients, event)


def found_in(folder: pathlib.Path, index: int) -> Tuple[str, str]:
    """The event of this index, and the cause."""
    lines = (folder / "history.edn").read_text().splitlines()
    return [line for line in lines if line.startswith("{")][index], (folder / "cause.txt").read_text()


def wanted(store: OneKey) -> Tuple[str, str]:
    """The name of the wrong operation, and the words of its cause."""
    if store.model == "set":
        return "read", f"lacks {store.wrong}, which had been added before"
    if store.model.endswith("queue"):
        return "dequeue", f"took {store.wrong} from queue {KEY}, which client"
    return "read", f"read {store.wrong} from key {KEY}, which could not hold"


TESTS: List[Callable[[], None]] = [many_clients_of_one_object_are_decided, by_ends_they_are_not, a_wrong_answer_of_many_clients_is_illegal]
