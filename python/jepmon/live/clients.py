"""Clients of a live test, each in a thread of its own. An exception in one client, or Ctrl-C, ends the others."""
from __future__ import annotations

import collections
import copy
import signal
import threading
from typing import Callable, Deque, List, Optional, Protocol

from .verdicts import NotLegal, Refused

GLANCE = 0.05  # seconds between two looks at running clients: a Ctrl-C just before a wait takes effect at the end of the wait


class Test(Protocol):
    """The runner of clients."""

    failure: Optional[NotLegal]
    broken_off: Optional[Refused]  # set while the test waits for clients after one has raised an exception

    def settle(self, number: int) -> None:
        """Makes the operations of this thread those of the client with this number."""


def run_clients(test: Test, work: Callable[[int], object], threads: int) -> None:
    """Does the work of Monitor.run."""
    faults: Deque[BaseException] = collections.deque()

    def client(number: int) -> None:
        signal.pthread_sigmask(signal.SIG_SETMASK, mask)
        try:
            test.settle(number)
            work(number)
        except BaseException as fault:  # any exception; it is raised below
            faults.append(fault)

    started: List[threading.Thread] = []
    # Ctrl-C waits while threads start: otherwise a thread could wait for ever for a lock that the interrupted thread holds.
    mask = signal.pthread_sigmask(signal.SIG_BLOCK, [signal.SIGINT])
    try:
        try:
            for number in range(threads):
                thread = threading.Thread(target=client, args=(number,))
                thread.start()
                started.append(thread)
        finally:
            signal.pthread_sigmask(signal.SIG_SETMASK, mask)
        for thread in started:
            while thread.is_alive():
                thread.join(GLANCE)
                if faults and test.broken_off is None:
                    test.broken_off = Refused(f"the test was broken off: another client has raised {faults[0]!r}")
    except BaseException:
        test.failure = test.failure or Refused("the test was broken off")
        raise
    finally:
        for thread in started:
            thread.join()
        test.broken_off = None
    raise_first(test, faults)


def raise_first(test: Test, faults: Deque[BaseException]) -> None:
    """Raises the verdict that is not legal, otherwise the first exception of a client. Keeps no reference to an exception, since an
    exception keeps everything in its frames alive."""
    first = faults[0] if faults else None
    faults.clear()
    try:
        if test.failure is not None:
            raise copy.copy(test.failure)
        if first is not None:
            raise first
    finally:
        del first
