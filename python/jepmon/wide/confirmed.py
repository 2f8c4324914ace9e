"""Tests whether a list is an order of a history, by `jepmon confirm`. If the program has no such command, a replacement in Python
(ordered.py) decides. Only this module knows which of the two decides."""
from __future__ import annotations

import subprocess
import tempfile
from typing import NamedTuple, Optional, Sequence

from ..history import Operation
from ..program import CURE, Options, ProgramError, find_program
from ..shrinking.part import as_asked, events_of, text_of
from . import ordered
from .operation import OutOfTime

IS_ONE, IS_NONE = "linearizable", "no order "
PATIENCE = 10.0  # seconds for the program, if no other number is given


class Said(NamedTuple):
    """The reply about an order, and whether a proved program gave it."""

    is_order: bool
    is_proved: bool


def confirmed(operations: Sequence[Operation], options: Options, order: Sequence[int], program: Optional[str] = None,
              seconds: float = PATIENCE) -> Said:
    """Whether this is an order of these operations of one key. The order names operations by the index of their invocations. Operations
    that are not in it did not take place. Raises OutOfTime if the program takes longer than `seconds`."""
    said = by_program(operations, options, order, find_program(program), seconds)
    return Said(ordered.is_order(operations, options.model, order), False) if said is None else Said(said, True)


def by_program(operations: Sequence[Operation], options: Options, order: Sequence[int], program: str, seconds: float) -> Optional[bool]:
    """The program's reply about the order; None if it has no such command."""
    events = events_of(operations)
    place = {event.index: number for number, event in enumerate(events)}
    asked = as_asked(options)
    words = ["--concurrency", str(asked.concurrency), "--model", asked.model]
    try:
        with tempfile.NamedTemporaryFile("w", prefix="jepmon-order-", suffix=".edn") as file:
            file.writelines(f"{place[id]}\n" for id in order)
            file.flush()
            ran = subprocess.run([program, "confirm", "-", file.name, *words], input=text_of(events, options.concurrency).encode(),
                                 stdout=subprocess.PIPE, stderr=subprocess.DEVNULL, timeout=seconds)
    except subprocess.TimeoutExpired as fault:
        raise OutOfTime from fault
    except OSError as fault:
        raise ProgramError(f"{program} can't be asked about an order: {fault.strerror}; {CURE}") from fault
    line = ran.stdout.decode("utf-8", "replace").rstrip("\n")
    if (line, ran.returncode) == (IS_ONE, 0):
        return True
    if line.startswith(IS_NONE) and ran.returncode == 1:
        return False
    if line:
        raise ProgramError(f"{program} said {line[:200]!r} of an order, with status {ran.returncode}")
    return None
