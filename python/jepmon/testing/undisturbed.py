"""Delays Ctrl-C, and the other signals that end a test, until a new process or folder is known to the code that removes it."""
from __future__ import annotations

import contextlib
import signal
import threading
from typing import Any, Dict, Iterator, List

ENDING = (signal.SIGINT, signal.SIGTERM, signal.SIGHUP)


@contextlib.contextmanager
def undisturbed() -> Iterator[None]:
    """Delays each signal that comes during the block to the end of the block. Signals interrupt only the main thread, so other threads need
    no protection."""
    if threading.current_thread() is not threading.main_thread():
        yield
        return
    came: List[int] = []
    handlers: Dict[signal.Signals, Any] = {number: signal.signal(number, lambda one, frame: came.append(one)) for number in ENDING}
    try:
        yield
    finally:
        for number, handler in handlers.items():
            signal.signal(number, signal.SIG_DFL if handler is None else handler)
        for one in came:
            signal.raise_signal(one)
