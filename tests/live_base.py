"""The common parts of the live tests: stores in this process, some with a fault, and the program under test. It puts the package on the
path, so it is imported first."""
import contextlib
import io
import pathlib
import random
import subprocess
import sys
import tempfile
import threading
from typing import Callable, Dict, Iterator, List, Optional, Type

TOP = pathlib.Path(__file__).resolve().parent.parent
sys.path.insert(0, str(TOP / "python"))

import program as tested  # noqa: E402
from jepmon import Monitor, Refused  # noqa: E402

PROGRAM = str(tested.PROGRAM)
THREADS = 4
KEYS = 3


class Store:
    """Two copies of the same keys: writes go to one and reads to the other. Each write is carried over at once, until the copies are cut
    after a number of writes."""

    def __init__(self, writes_until_cut: float = float("inf")) -> None:
        self.lock = threading.Lock()
        self.left = writes_until_cut
        self.written: Dict[int, int] = {}
        self.shown: Dict[int, int] = {}

    def put(self, key: int, value: int) -> None:
        with self.lock:
            self.left -= 1
            self.written[key] = value
            if self.left >= 0:
                self.shown[key] = value

    def get(self, key: int) -> Optional[int]:
        with self.lock:
            return self.shown.get(key)

    def cas(self, key: int, old: int, new: int) -> bool:
        with self.lock:
            if self.written.get(key) != old:
                return False
            self.written[key] = self.shown[key] = new
            return True


class ForgetfulLock:
    """A lock that forgets at its thirtieth request that somebody holds it."""

    def __init__(self) -> None:
        self.lock = threading.Lock()
        self.held = False
        self.requests = 0

    def take(self) -> bool:
        with self.lock:
            self.requests += 1
            if self.held and self.requests != 30:
                return False
            self.held = True
            return True

    def give(self) -> None:
        with self.lock:
            self.held = False


def reads_and_writes(monitor: Monitor, store: Store, operations: int) -> None:
    def client(thread: int) -> None:
        draws = random.Random(thread)
        for number in range(operations):
            key = draws.randrange(KEYS)
            if draws.random() < 0.5:
                with monitor.write(key, thread * operations + number):
                    store.put(key, thread * operations + number)
            else:
                with monitor.read(key) as op:
                    op.value = store.get(key)

    monitor.run(client, THREADS)


def raised(kind: Type[BaseException], act: Callable[[], object]) -> BaseException:
    """The exception of this kind that the act raises; none is a fault of the test."""
    try:
        act()
    except kind as error:
        return error
    raise AssertionError(f"no {kind.__name__} was raised")


@contextlib.contextmanager
def another_program(script: str) -> Iterator[str]:
    """The path of a program that is this shell script, in which jepmon stands for the program under test."""
    with tempfile.TemporaryDirectory() as folder:
        path = pathlib.Path(folder, "program")
        path.write_text(f"#!/bin/sh\njepmon={PROGRAM}\n{script}\n")
        path.chmod(0o755)
        yield str(path)


def refused_at_once(script: str, timeout: float = 60.0) -> str:
    """The message of a monitor of this shell script as it is made."""
    with another_program(script) as program:
        return str(raised(Refused, lambda: Monitor(program, timeout=timeout))).replace(program, "PROGRAM", 1)


def kinds_told(log: io.StringIO, name: str) -> List[str]:
    """The types of the completions of these operations, as they were sent."""
    lines = [line for line in log.getvalue().splitlines() if f":f :{name}," in line]
    return [line.split()[1].strip(":,") for line in lines if ":invoke" not in line]


def child_of(monitor: Monitor) -> "subprocess.Popen[bytes]":
    """The program of a monitor, as it runs."""
    return monitor._telling._exchange._script._child
