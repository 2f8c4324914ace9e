"""The lines of the threads of a live test, in one order. While one thread waits for replies, the others queue their lines, and the next
thread sends all of them together. An invocation changes no verdict, so it waits in the queue for the next line whose reply is awaited."""
from __future__ import annotations

import _thread
from typing import Callable, List, Optional

from .owner import OwnedLock


class End:
    """The completion of an operation, and the operation that it ends."""

    __slots__ = ("kind", "thread", "process", "name", "invoked", "counts", "is_lost")

    def __init__(self, kind: str, thread: int, process: int, name: str, invoked: str, counts: bool) -> None:
        self.kind = kind  # "ok", "fail" or "info", as it is recorded
        self.thread, self.process, self.name = thread, process, name
        self.invoked = invoked  # the operand of its invocation
        self.counts = counts  # whether it counts as an operation of the test; the write by which a key begins does not
        self.is_lost = False  # whether it is an ok that is sent as an info


class Line:
    """An event, or a command, which has no key."""

    __slots__ = ("text", "key", "index", "end", "is_answered", "_ready", "_leads")

    def __init__(self, text: str, key: Optional[int] = None, index: int = -1, end: Optional[End] = None) -> None:
        self.text, self.key, self.index, self.end = text, key, index, end
        self.is_answered = False
        self._ready: Optional[_thread.LockType] = None  # free once the line has a reply, or its thread leads
        self._leads = False


Answer = Callable[[List[Line]], None]


class LineQueue:
    """A queue of lines. The caller of each method has the lock, and has it again when the call returns."""

    def __init__(self, lock: OwnedLock) -> None:
        self.lines: List[Line] = []  # lines that nobody has sent yet
        self._lock = lock
        self._is_led = False

    def put(self, line: Line) -> None:
        """Queues a line whose reply is not awaited."""
        self.lines.append(line)

    def ask(self, line: Line, answer: Answer) -> None:
        """Queues a line, and returns when it has a reply, through this thread or through the leading thread. `answer` gets the replies to
        the next lines. It is called with the lock, and releases the lock while it waits for replies."""
        self.lines.append(line)
        try:
            if self._is_led:
                self._wait(line)
            if not line.is_answered:
                self._is_led = line._leads = True
                self._lead(answer)
        except BaseException:  # such as Ctrl-C: the line is sent in any case, and the other threads must not wait for this one
            self._leave(line)
            raise

    def _wait(self, line: Line) -> None:
        line._ready = _thread.allocate_lock()
        line._ready.acquire()
        self._lock.release()
        try:
            line._ready.acquire()
        finally:
            self._lock.acquire()

    def _lead(self, answer: Answer) -> None:
        lines, self.lines = self.lines, []
        try:
            answer(lines)
        finally:
            for line in lines:
                line.is_answered = True
                if line._ready is not None:
                    line._ready.release()
            self._hand_over()

    def _hand_over(self) -> None:
        """Makes the first waiting thread the leader, if a thread waits."""
        for line in self.lines:
            if line._ready is not None:
                line._leads = True
                line._ready.release()
                return
        self._is_led = False

    def _leave(self, line: Line) -> None:
        if not line.is_answered:
            line._ready = None
            if line._leads:
                self._hand_over()
