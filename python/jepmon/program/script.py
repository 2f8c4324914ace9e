"""A running `jepmon script`."""
from __future__ import annotations

import os
import select
import signal
import subprocess
import tempfile
import time
import weakref
from typing import IO, List, Optional

from ..tools.errors import ProgramError
from .finding import CURE, find_program

PATIENCE = 10.0  # the program has this many seconds to end


class Script:
    """A running `jepmon script`, which replies to each line. One thread at a time may use it."""

    def __init__(self, words: List[str], timeout: float = 60.0, program: Optional[str] = None) -> None:
        words = [find_program(program), "script"] + words
        self._name, self._timeout = " ".join(words), timeout
        self._unread = b""  # the bytes after the last reply
        self._errors: IO[bytes] = tempfile.TemporaryFile()  # a file and not a pipe, since a program that prints much would fill a pipe
        try:
            # The program has a session of its own, so that Ctrl-C in a terminal ends the test, and not the program first.
            self._child = subprocess.Popen(words, bufsize=0, stdin=subprocess.PIPE, stdout=subprocess.PIPE, stderr=self._errors,
                                           start_new_session=True)
        except OSError as fault:
            self._errors.close()
            raise ProgramError(f"{words[0]} can't be run: {fault.strerror}; {CURE}") from fault
        except BaseException:
            self._errors.close()
            raise
        assert self._child.stdin is not None and self._child.stdout is not None
        self._input, self._output = self._child.stdin, self._child.stdout
        _running.add(self)
        self._answers = select.poll()
        self._answers.register(self._output, select.POLLIN)
        try:
            os.set_blocking(self._input.fileno(), False)
            reply = self.reply("[:verdict]")
            if reply != "legal":
                raise ProgramError(f"{self._name} is no jepmon: its first reply was {reply[:200]!r}")
        except BaseException:
            self.end(patience=0)
            raise

    def reply(self, line: str, timeout: Optional[float] = None) -> str:
        """Sends a line, and waits for its reply. Raises a ProgramError if the program has ended, or does not reply in time."""
        return self.replies([line], timeout)[0]

    def replies(self, lines: List[str], timeout: Optional[float] = None) -> List[str]:
        """Sends these lines together, and waits for the reply to each. They must be few, so that their replies fit into a pipe."""
        seconds = self._timeout if timeout is None else min(timeout, self._timeout)
        deadline = time.monotonic() + seconds
        try:
            self._send(("\n".join(lines) + "\n").encode(), deadline)
            return [self._receive(deadline) for _ in lines]
        except (BrokenPipeError, EOFError):
            raise self._ended() from None
        except TimeoutError:
            self._kill()
            raise ProgramError(f"{self._name} gave no reply for {seconds:g} seconds{self._errors_told()}") from None

    def _send(self, data: bytes, deadline: float) -> None:
        while data:
            try:
                data = data[os.write(self._input.fileno(), data):]
            except BlockingIOError:  # the pipe is full
                room = select.poll()
                room.register(self._input, select.POLLOUT)
                _await(room, deadline)

    def _receive(self, deadline: float) -> str:
        while b"\n" not in self._unread:
            _await(self._answers, deadline)
            piece = os.read(self._output.fileno(), 65536)
            if not piece:
                raise EOFError
            self._unread += piece
        reply, _, self._unread = self._unread.partition(b"\n")
        return reply.decode(errors="replace")

    def _ended(self) -> ProgramError:
        """Says how the program has ended, with its standard error."""
        try:
            status = self._child.wait(timeout=PATIENCE)
        except subprocess.TimeoutExpired:
            return ProgramError(f"{self._name} still runs, but reads and writes no more lines{self._errors_told()}")
        how = f"with status {status}" if status >= 0 else f"by signal {-status}"
        return ProgramError(f"{self._name} has ended, {how}{self._errors_told()}")

    def _errors_told(self) -> str:
        """Returns the end of the program's standard error. For a refusal it is only the line of the refusal, without the usual cause."""
        file = self._errors.fileno()
        text = os.pread(file, 2000, max(0, os.fstat(file).st_size - 2000)).decode(errors="replace").strip()
        refusals = [line for line in text.splitlines() if line.startswith("refused ")]
        return f": {refusals[-1] if refusals else text}" if text else ""

    def end(self, patience: float = PATIENCE) -> None:
        """Ends the program by the end of its input, or else by force. A second call does nothing."""
        self._input.close()
        try:
            self._child.wait(timeout=patience)
        except subprocess.TimeoutExpired:
            self._kill()
        self._output.close()
        self._errors.close()

    def _kill(self) -> None:
        """Kills the program if it still runs, and all processes that it has started."""
        if self._child.poll() is None:
            os.killpg(self._child.pid, signal.SIGKILL)
            self._child.wait()


_running: "weakref.WeakSet[Script]" = weakref.WeakSet()


def _leave_to_parent() -> None:
    """Closes the input in a forked process. The program ends at the end of its input, so this process must not keep the input open."""
    for script in _running:
        script._input.close()


os.register_at_fork(after_in_child=_leave_to_parent)


def _await(poll: select.poll, deadline: float) -> None:
    """Waits until the file of the poll is ready, or at its end."""
    if not poll.poll(min(max(0.0, deadline - time.monotonic()), 1e6) * 1000):
        raise TimeoutError
