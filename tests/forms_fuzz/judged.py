"""jepmon-judge in this process: the verdict, and the lines on standard error that warn."""
from __future__ import annotations

import contextlib
import io
import os
import pathlib
import re
import tempfile
from typing import Dict, FrozenSet, List, NamedTuple, Sequence, Tuple

from jepmon.judge import tool
from jepmon.tools import command

from .printed import Printed

STATUS = {0: "legal", 1: "illegal", 2: "unknown", 3: "refused"}
QUOTED = re.compile(r'"(?:[^"\\]|\\.)*"|\'(?:[^\'\\]|\\.)*\'')
OPERATIONS = re.compile(r"\b(?:read|write|cas|add|acquire|release|enqueue|dequeue)(?:, (?:read|write|cas|release|dequeue))*\b")
MODEL = re.compile(r"\b(?:cas-register|register|mutex|fifo-queue|unordered-queue|set)\b")
NUMBER = re.compile(r"-?[0-9]+(?:[.,:][0-9]+)*")


class Judged(NamedTuple):
    word: str
    output: str
    lines: List[str]  # of standard error


class Room:
    """A folder of its own in which histories are judged."""

    def __init__(self) -> None:
        self._folder = tempfile.TemporaryDirectory(prefix="forms-")
        self._path = pathlib.Path(self._folder.name)
        command.collect_seldom()

    def __enter__(self) -> "Room":
        self._back = os.getcwd()
        os.chdir(self._path)
        return self

    def __exit__(self, *_: object) -> None:
        os.chdir(self._back)
        self._folder.cleanup()

    def judged(self, given: Printed, *more: str) -> Judged:
        """The tool's output for these files with these words."""
        for name, raw in given.files.items():
            pathlib.Path(name).write_bytes(raw)
        out, error = io.StringIO(), io.StringIO()
        try:
            with contextlib.redirect_stdout(out), contextlib.redirect_stderr(error):
                status = tool.main([*given.words, *more])
        finally:
            for name in given.files:
                os.unlink(name)
        return Judged(STATUS.get(status, f"status {status}"), out.getvalue(), error.getvalue().splitlines())


def shape(line: str) -> str:
    """The line without what is of one history: its numbers, its operations, and what it quotes."""
    return OPERATIONS.sub("OP", MODEL.sub("MODEL", NUMBER.sub("#", QUOTED.sub('""', line))))


class Usual:
    """The lines that the tool says of plain histories of each form, whose verdicts are right: they warn of nothing."""

    def __init__(self) -> None:
        self._shapes: Dict[str, FrozenSet[str]] = {}

    def learn(self, form: str, said: List[Judged]) -> None:
        self._shapes[form] = frozenset(shape(line) for judged in said for line in judged.lines)

    def knows(self, form: str) -> bool:
        return form in self._shapes

    def warnings(self, form: str, judged: Judged, options: Sequence[str]) -> List[str]:
        """The lines that are not usual, or that name one of these options."""
        return [line for line in judged.lines if line.startswith("judge: ")
                and (shape(line) not in self._shapes[form] or any(option in line for option in options))]


def is_fault(judged: Judged) -> Tuple[bool, str]:
    """Whether the tool says a fault of its own, and the line."""
    lines = [line for line in judged.lines if "a fault of" in line or "Traceback" in line]
    return bool(lines), lines[0] if lines else ""
