#!/usr/bin/env python3
"""A test without an end: two hundred clients of forty registers, judged by one program after another, for as long as you let it run.

    examples/python/long_run.py                        # until Ctrl-C; it says each ten seconds how far it is
    examples/python/long_run.py --seconds 5            # legal
    examples/python/long_run.py --stale 20000          # a copy falls behind after so many writes: illegal, and runs/latest says why

The store lives in this process; put your store's client in its place, with op.name, or a key that you make of it, as the key. Names of
objects that are judged no more are given to forget, so that the store does not grow. Status: 0 legal, 1 illegal, 2 not judged to
its end, 3 where it could not judge.
"""
import argparse
import importlib.util
import itertools
import pathlib
import random
import signal
import sys
import threading
import time
import traceback
from typing import Dict, Iterator, List, Optional

if importlib.util.find_spec("jepmon") is None:  # it is not installed: the one of this repository
    sys.path.insert(0, str(pathlib.Path(__file__).resolve().parents[2] / "python"))

from jepmon import JepmonError, LongMonitor  # noqa: E402
from jepmon.long import Handle  # noqa: E402

CLIENTS = 200
REGISTERS = 40
PAUSE = 10.0  # seconds between two lines of what it says


class Store:
    """The store under test: reads are answered by a copy, which gets the first `writes` alone."""

    def __init__(self, writes: float) -> None:
        self.lock = threading.Lock()
        self.left = writes
        self.copy: Dict[str, int] = {}

    def put(self, name: str, value: int) -> None:
        with self.lock:
            self.left -= 1
            if self.left >= 0:
                self.copy[name] = value

    def get(self, name: str) -> Optional[int]:
        with self.lock:
            return self.copy.get(name)

    def forget(self, name: str) -> None:
        with self.lock:
            self.copy.pop(name, None)


def client(registers: List[Handle], store: Store, values: Iterator[int], number: int, done: threading.Event) -> None:
    draws = random.Random(number)
    while not done.is_set():
        register = draws.choice(registers)
        if draws.random() < 0.5:
            value = next(values)
            with register.write(value) as op:  # an exception in the block: it may have taken place
                store.put(op.name, value)
        else:
            with register.read() as op:
                op.value = store.get(op.name)  # None where it is missing
        time.sleep(0.01)


def watch(monitor: LongMonitor, seconds: float, done: threading.Event) -> None:
    """Says how far it is, and when the time is up."""
    begin = time.monotonic()
    while not done.wait(min(PAUSE, max(0.0, begin + seconds - time.monotonic()))):
        if time.monotonic() >= begin + seconds:
            done.set()
        print(f"{time.monotonic() - begin:.0f} seconds, {monitor.length} events, {monitor.segments} programs so far", flush=True)


def words() -> argparse.Namespace:
    parser = argparse.ArgumentParser(description=__doc__, formatter_class=argparse.RawDescriptionHelpFormatter)
    parser.add_argument("--seconds", type=float, default=float("inf"), help="until Ctrl-C unless given")
    parser.add_argument("--stale", type=float, default=float("inf"), metavar="WRITES", help="how many the copy gets; all unless given")
    parser.add_argument("--events", type=int, default=1 << 18, help="of one program, after which another one goes on")
    parser.add_argument("--out", metavar="DIR", default="runs/", help="where the folder of the run is made")
    parser.add_argument("--jepmon", metavar="PROGRAM", help="its path, where it is not that of this repository")
    return parser.parse_args()


def main() -> int:
    given = words()
    store, values, done = Store(given.stale), itertools.count(), threading.Event()
    monitor = LongMonitor(given.jepmon, expected=(OSError,), out=given.out, keep=3, forget=store.forget, events=given.events,
                          unknown="drop")  # it says what was not judged by itself, below
    registers = [monitor.fresh("register") for _ in range(REGISTERS)]
    signal.signal(signal.SIGINT, lambda *_: done.set())
    try:
        with monitor:
            threading.Thread(target=watch, args=(monitor, given.seconds, done), daemon=True).start()
            monitor.run(lambda number: client(registers, store, values, number, done), CLIENTS)
            for register in registers:  # once more, when the clients have ended
                for one in register.objects:
                    with one.read() as op:
                        op.value = store.get(op.name)
    except JepmonError as found:
        print(found)
    finally:
        done.set()
    verdict = monitor.close()
    print(f"{monitor.length} events, {monitor.segments} programs: {verdict}")
    if monitor.failure is not None:
        return monitor.failure.status
    return 0 if verdict == "legal" else 2


if __name__ == "__main__":
    try:
        status = main()
    except Exception:
        traceback.print_exc()
        status = 3
    sys.exit(status)
