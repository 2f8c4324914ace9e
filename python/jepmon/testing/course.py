"""The course of a run: the settings of `--phases` and `--reserve`, which override the draws from the seed (generators.py).

    --phases 5:strikes=off,20:rate=1000,5:changes=0:limit=200      three phases; a number is the phase's seconds
    --reserve changes=2,reads=1                                    clients 0 and 1 change something, client 2 reads, and others do both
"""
from __future__ import annotations

import re
import threading
from typing import Dict, List, NamedTuple, Optional, Tuple

from .errors import ServerError
from .generators import Phases

NUMBER = re.compile(r"[0-9]+(?:\.[0-9]+)?")
FORM = "each is SECONDS, with some of rate=N, changes=SHARE, limit=N and strikes=off, such as 5:rate=100:changes=0.5"
RESERVED = {"changes": 1.0, "reads": 0.0}  # for each kind of reserved client: the share of operations that change something


class Stage(NamedTuple):
    """A phase that --phases names."""

    begin: float  # seconds from the first operation on
    end: float
    rate: Optional[float] = None  # operations a second of all clients; None: as --rate says
    changes: Optional[float] = None  # the share of operations that change something; None: as drawn from the seed
    limit: Optional[int] = None  # the greatest number of operations
    strikes: bool = True  # whether there are strikes


class Now(NamedTuple):
    """The present work of a client."""

    rate: float  # operations a second of all clients; 0 is as many as they can
    changes: float
    goes_on: bool  # False if the limit of the stage is reached


class Course:
    """The stages of a run. All clients are in the same stage at any time."""

    def __init__(self, seed: int, rate: float, stages: Tuple[Stage, ...] = (), reserved: Tuple[float, ...] = ()) -> None:
        self._rate, self._stages, self._reserved = rate, stages, reserved
        self._phases = Phases(seed)
        self._lock = threading.Lock()
        self._done: Dict[float, int] = {}  # the number of operations, by the beginning of the stage

    def next(self, seconds: float, client: int) -> Now:
        """Returns the present work of a client, for its next operation. Counts this operation."""
        drawn, stage = self._phases.at(seconds), self._stage(seconds)
        rate = self._rate if stage is None or stage.rate is None else stage.rate
        changes = drawn.changes if stage is None or stage.changes is None else stage.changes
        if client < len(self._reserved):
            changes = self._reserved[client]
        return Now(rate * drawn.speed, changes, stage is None or self._takes(stage))

    def calm_from(self, seconds: float) -> float:
        """Returns the time at which the next calm begins: now or later. Infinity means never."""
        return min((max(seconds, stage.begin) for stage in self._stages if not stage.strikes and seconds < stage.end), default=float("inf"))

    def _stage(self, seconds: float) -> Optional[Stage]:
        return next((stage for stage in self._stages if stage.begin <= seconds < stage.end), None)

    def _takes(self, stage: Stage) -> bool:
        if stage.limit is None:
            return True
        with self._lock:
            self._done[stage.begin] = self._done.get(stage.begin, 0) + 1
            return self._done[stage.begin] <= stage.limit


def stages_of(text: str) -> Tuple[Stage, ...]:
    stages: List[Stage] = []
    begin = 0.0
    for item in text.split(","):
        length, *words = item.split(":")
        pairs = dict(word.partition("=")[::2] for word in words)
        if not NUMBER.fullmatch(length) or float(length) <= 0 or len(pairs) < len(words):
            raise ServerError(f"--phases {item}: {FORM}")
        stage = Stage(begin, begin + float(length))
        for name, value in pairs.items():
            stage = with_(stage, item, name, value)
        stages.append(stage)
        begin = stage.end
    return tuple(stages)


def with_(stage: Stage, item: str, name: str, value: str) -> Stage:
    if name == "strikes" and value in ("on", "off"):
        return stage._replace(strikes=value == "on")
    if NUMBER.fullmatch(value):
        number = float(value)
        if name == "rate":
            return stage._replace(rate=number)
        if name == "changes" and number <= 1:
            return stage._replace(changes=number)
        if name == "limit" and number == int(number):
            return stage._replace(limit=int(number))
    raise ServerError(f"--phases {item}: {FORM}")


def reserved_of(text: str, clients: int) -> Tuple[float, ...]:
    """The share of changes of each reserved client, one after another."""
    found: List[float] = []
    for item in text.split(","):
        name, _, number = item.partition("=")
        if name not in RESERVED or not number.isdecimal() or not number.isascii():
            raise ServerError(f"--reserve {item}: it takes changes=N and reads=N, with numbers of clients")
        found += [RESERVED[name]] * int(number)
    if len(found) > clients:
        raise ServerError(f"--reserve {text}: these are {len(found)} clients, and there are {clients}")
    return tuple(found)
