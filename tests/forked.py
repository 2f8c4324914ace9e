"""Python's command line in a child of this process, which has imported the tools once: a run costs a fork in place of a start of Python. A
run's changes to its folder, its environment and its streams are its own."""
from __future__ import annotations

import io
import os
import pathlib
import runpy
import signal
import subprocess
import sys
import tempfile
import threading
import time
import traceback
from typing import IO, Mapping, Optional, Sequence

sys.path.insert(0, str(pathlib.Path(__file__).resolve().parent.parent / "python"))

import jepmon.explain.tool  # noqa: E402, F401
import jepmon.from_jepsen.tool  # noqa: E402, F401
import jepmon.from_json  # noqa: E402, F401
import jepmon.judge.tool  # noqa: E402, F401

LIMIT = 60.0  # seconds for one run
Ran = "subprocess.CompletedProcess[bytes]"


def ran(words: Sequence[str], text: bytes = b"", folder: Optional[str] = None, environment: Optional[Mapping[str, str]] = None,
        limit: float = LIMIT) -> "subprocess.CompletedProcess[bytes]":
    """The result of `python3 WORD..`, a script or `-m` and a module, with the text on standard input."""
    read, write = os.pipe()
    with tempfile.TemporaryFile() as out, tempfile.TemporaryFile() as error:
        sys.stdout.flush()
        child = os.fork()
        if child == 0:
            os.close(write)
            _child(words, (read, out.fileno(), error.fileno()), folder, environment)
        os.close(read)
        feeder = threading.Thread(target=_feed, args=(write, text))
        feeder.start()
        status = _waited(child, limit)
        feeder.join()
        if status is None:
            raise subprocess.TimeoutExpired(list(words), limit)
        return subprocess.CompletedProcess(list(words), status, _whole(out), _whole(error))


def _child(words: Sequence[str], streams: Sequence[int], folder: Optional[str], environment: Optional[Mapping[str, str]]) -> None:
    """Does the work of the command line, and ends this process."""
    status = 1
    try:
        os.setsid()
        for number, stream in enumerate(streams):
            os.dup2(stream, number)
        if folder is not None:
            os.chdir(folder)
        if environment is not None:
            os.environ.clear()
            os.environ.update(environment)
        sys.stdin = io.TextIOWrapper(open(0, "rb"), "utf-8")
        sys.stdout = io.TextIOWrapper(open(1, "wb"), "utf-8")
        sys.stderr = io.TextIOWrapper(open(2, "wb"), "utf-8", "backslashreplace", line_buffering=True)
        status = _done(words)
        sys.stdout.flush()
        sys.stderr.flush()
    finally:
        os._exit(status)


def _done(words: Sequence[str]) -> int:
    """The status of the command line."""
    is_module = words[0] == "-m"
    sys.argv = list(words[is_module:])
    try:
        if is_module:
            runpy.run_module(words[1], run_name="__main__", alter_sys=True)
        else:
            runpy.run_path(words[0], run_name="__main__")
    except SystemExit as end:
        return end.code if isinstance(end.code, int) else 0 if end.code is None else 1
    except BaseException:
        traceback.print_exc()
        return 1
    return 0


def _feed(write: int, text: bytes) -> None:
    """Writes the text into the pipe, as far as it is read."""
    try:
        with open(write, "wb") as pipe:
            pipe.write(text)
    except BrokenPipeError:
        pass


def _waited(child: int, limit: float) -> Optional[int]:
    """The status of the child as it ends; None if it does not in time, and was killed."""
    end, pause = time.monotonic() + limit, 0.001
    while time.monotonic() < end:
        found, status = os.waitpid(child, os.WNOHANG)
        if found:
            return -os.WTERMSIG(status) if os.WIFSIGNALED(status) else os.WEXITSTATUS(status)
        time.sleep(pause)
        pause = min(2 * pause, 0.05)
    os.killpg(child, signal.SIGKILL)
    os.waitpid(child, 0)
    return None


def _whole(file: IO[bytes]) -> bytes:
    file.seek(0)
    return file.read()
