"""The common part of Monitor and LongMonitor: clients, notes of faults, and the end of the test."""
from __future__ import annotations

import contextlib
import copy
from types import TracebackType
from typing import Callable, Counter, Dict, Iterator, NoReturn, Optional, Protocol, Type

from ..history.fault_notes import BEGIN, END, NOTE, folded
from .clients import Test, run_clients
from .conclusion import say_if_idle
from .owner import OwnedLock, not_sent
from .verdicts import NotLegal


class Judge(Test, Protocol):
    """The object that records the operations of the test and has the verdict."""

    lock: OwnedLock

    @property
    def is_closed(self) -> bool:
        """Whether close has given the final verdict."""

    def note(self, kind: str, text: str) -> None:
        """Notes a fault, or the begin or end of one."""

    def close(self, error: Optional[BaseException]) -> str:
        """Ends the test, and gives the final verdict."""


class LiveTest:
    """The methods that Monitor and LongMonitor share."""

    _judge: Judge

    @property
    def failure(self) -> Optional[NotLegal]:
        """The verdict that is not legal, if there is one."""
        return self._judge.failure

    @property
    def counts(self) -> Dict[str, Counter[str]]:
        raise NotImplementedError

    def run(self, work: Callable[[int], object], threads: int) -> None:
        """Runs work(0) to work(threads - 1), each in a thread of its own. Raises a verdict that is not legal, otherwise the first exception
        of a thread. An exception in one thread, or Ctrl-C, ends each other thread at its next operation or fault."""
        run_clients(self._judge, work, threads)

    def note(self, text: str) -> None:
        """Notes a fault of one moment, such as "kill n1", in the run's folder, and in the log if there is one. It changes no verdict."""
        self._judge.note(NOTE, folded(text))

    @contextlib.contextmanager
    def fault(self, text: str) -> Iterator[None]:
        """Notes a fault that lasts as long as this block, such as "cut n1 off". If the test has ended, the fault does not begin, and the
        exception of an operation is raised. So a thread that injects faults ends when the clients end."""
        text = folded(text)
        self._judge.note(BEGIN, text)
        try:
            yield
        finally:
            self._judge.note(END, text)

    def _close(self, error: Optional[BaseException]) -> str:
        is_first = not self._judge.is_closed
        verdict = self._judge.close(error)
        if is_first and verdict == "legal" and error is None:
            say_if_idle(self.counts)
        return verdict

    def __reduce__(self) -> NoReturn:
        not_sent(self)

    def __exit__(
        self, kind: Optional[Type[BaseException]], error: Optional[BaseException], trace: Optional[TracebackType]
    ) -> None:
        if error is not None and not self._judge.lock.is_here:
            return  # this is a forked process that ends; the test continues in its own process
        verdict = self._close(error)
        if error is None and self.failure is not None:
            raise copy.copy(self.failure)
        if error is None:
            self._test_all_judged(verdict)

    def _test_all_judged(self, verdict: str) -> None:
        """Raises Unknown if some operations were not judged and this test asks for it."""
