#!/usr/bin/env python3
"""A test that catches a stale read, for pytest or by itself. It fails, as it should: the store that it tests is at fault.

By itself it ends with 1 where the store is at fault, 2 where jepmon does not know, and 3 where nothing was judged."""
import importlib.util
import pathlib
import sys
import threading
import traceback
from typing import Dict, Optional

if importlib.util.find_spec("jepmon") is None:  # it is not installed: the one of this repository
    sys.path.insert(0, str(pathlib.Path(__file__).resolve().parents[2] / "python"))

from jepmon import Monitor  # noqa: E402


class Store:
    """The store under test: reads are answered by a copy that gets the first hundred writes alone."""

    def __init__(self) -> None:
        self.lock = threading.Lock()
        self.writes = 0
        self.copy: Dict[int, int] = {}

    def put(self, key: int, value: int) -> None:
        with self.lock:
            self.writes += 1
            if self.writes <= 100:
                self.copy[key] = value

    def get(self, key: int) -> Optional[int]:
        with self.lock:
            return self.copy.get(key)


def test_reads_are_not_stale() -> None:
    store = Store()
    with Monitor() as monitor:

        def client(number: int) -> None:
            for value in range(number * 1000, number * 1000 + 1000):
                key = value % 3
                with monitor.write(key, value):  # an exception in the block: it may have taken place
                    store.put(key, value)
                with monitor.read(key) as op:
                    op.value = store.get(key)  # None where the key is missing

        monitor.run(client, 5)  # in five threads


if __name__ == "__main__":
    try:
        test_reads_are_not_stale()
    except Exception as fault:
        traceback.print_exc()
        sys.exit(getattr(fault, "status", 3))  # of a JepmonError: that of jepmon
