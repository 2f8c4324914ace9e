"""A process of a team: does the tasks that come through a connection, one after another, until it is closed (see team.py)."""
from __future__ import annotations

import gc
import multiprocessing.connection
from typing import Any, Callable, Optional, Tuple

from ..tools.errors import ProgramError
from .doubt import Doubt, ShardsError

TOLD = (Doubt, ShardsError, ProgramError, OSError, MemoryError)  # exceptions of tasks that are reported unchanged


def answer(function: Callable[[Any], Any], task: Any) -> Tuple[Any, Optional[BaseException]]:
    """The function's result for the task, and its exception."""
    try:
        return function(task), None
    except TOLD as fault:
        return None, fault
    except Exception as fault:
        return None, ShardsError(f"a fault of jepmon.shards itself: {fault!r}")


def serve(number: int) -> None:
    """Does the tasks that come through the connection of this number: pairs of a function and a task. The answer is a pair of the
    function's result and its exception."""
    gc.disable()  # there are no cycles here, and the search for cycles would look through all events again and again
    with multiprocessing.connection.Connection(number) as connection:
        try:
            while True:
                function, task = connection.recv()
                connection.send(answer(function, task))
        except (EOFError, ConnectionError):  # the team has ended
            return
