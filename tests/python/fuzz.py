"""Many random histories at once, each on a key of its own, as one file for the program."""
from __future__ import annotations

import os
import random
from typing import Dict, Iterator, List, Tuple

from jepmon import program
from jepmon.history import Event

from .histories import Clients, Way, text_of

EACH = int(os.environ.get("JEPMON_FUZZ", "15"))  # how many histories of each sort
TOGETHER = 50  # in one file


def batches(model: str, seed: int, ways: List[Way], each: int = EACH) -> Iterator[Tuple[int, Dict[int, List[Event]]]]:
    """Histories of the model, by key, and how many clients they have. They are drawn in turn in these ways."""
    numbers = random.Random(f"{model} {seed}")
    for begin in range(0, each, TOGETHER):
        way = ways[begin // TOGETHER % len(ways)]
        clients = Clients(numbers, way.clients)
        yield way.clients, {key: clients.history(model, way, key) for key in range(min(TOGETHER, each - begin))}


def checked(histories: Dict[int, List[Event]], options: program.Options) -> Dict[int, program.KeyLine]:
    """The program's verdict on each."""
    return lines_of(text_of([event for events in histories.values() for event in events]), options)


def lines_of(text: bytes, options: program.Options) -> Dict[int, program.KeyLine]:
    """The report on a file, by key."""
    report = program.check(text, options)
    if report.word == "refused":
        raise AssertionError(report.verdict)
    return {line.key: line for line in report.keys}


def has_program() -> bool:
    try:
        program.check(b"", program.Options())
    except program.ProgramError:
        return False
    return True
