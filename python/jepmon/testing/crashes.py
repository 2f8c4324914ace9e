"""A crash of a server: the server has ended by itself, or its log has a line that its class names as a crash. This is a finding about the
server, unless the machine caused the crash."""
from __future__ import annotations

import pathlib
import re
import sys
from typing import Dict, List, Optional, Sequence

from ..history.fault_notes import Fault, folded
from ..history.fault_texts import nodes_of
from ..history.fault_times import after_fault, before, seconds, since
from ..live import aftermath
from ..live.run_folder import CRASH, HISTORY, write_whole
from ..rates.run import parts_of
from .errors import Died, ServerError
from .node import AGAIN, TELLING, Node

WORDS = re.compile(r"panic|assert|segmentation|segfault|sanitizer|fatal|abort|core dumped|corrupt|traceback|exception|error", re.I)
HARD = re.compile(r"\b(?:panic|assert|segmentation|segfault|core dumped|SIG(?:SEGV|ABRT|BUS|ILL|FPE)\b)|sanitizer", re.I)  # not "sig_fatal_cb"
LAST = 30  # the last lines of a log, which are searched for the reason of the end
TRACE = 200  # lines that are searched for HARD: registers and a stack may follow such a line
LONGEST = 240  # characters of a line that are shown
SHOWN, BEFORE = 12, 2  # lines of a log in the text about a crash; the number of these lines before the decisive line
PARTS = 2  # the text names faults of this many newest parts
MOST = 1 << 22  # bytes of a log that are read at once
SAYS = "says in its log: "
KILLED = "by signal 9"  # a server never sends this signal to itself


class LogWatch:
    """Looks for matching lines in the new parts of the nodes' logs."""

    def __init__(self, nodes: Sequence[Node], patterns: Sequence[str]) -> None:
        self._nodes = list(nodes)
        try:
            self._patterns = [re.compile(pattern) for pattern in patterns]
        except re.error as fault:
            raise ServerError(f"crashes of the server's class: {fault.pattern!r} is not a regular expression: {fault}") from fault
        self._read: Dict[str, int] = {}  # for each node: the bytes of its log that were searched

    def look(self) -> None:
        """Raises a Died if a log has a matching line."""
        for node in self._nodes if self._patterns else []:
            for line in self._new_lines(node):
                if any(pattern.search(line) for pattern in self._patterns):
                    raise Died(node.name, f"{SAYS}{line.strip()[:LONGEST]}", node.log)

    def _new_lines(self, node: Node) -> List[str]:
        """Those that are whole."""
        try:
            with open(node.log, "rb") as file:
                file.seek(self._read.get(node.name, 0))
                data = file.read(MOST)
        except OSError:
            return []
        whole = data.rfind(b"\n") + 1
        self._read[node.name] = self._read.get(node.name, 0) + (whole or (len(data) if len(data) == MOST else 0))
        return data[:whole].decode("utf-8", "replace").splitlines()


def finding(died: Died) -> Optional[str]:
    """The verdict on a crash. None if the crash says nothing about the server: the machine lacked something, or somebody else has killed
    the server."""
    if died.how.startswith(SAYS):
        return f"crashed {died.node}: it {died.how}"
    lines = last_lines(died.log)
    if died.how.endswith(KILLED) or any(words in line.lower() for line in lines for words in TELLING):
        return None
    line = hard(died.log) or telling(lines)
    return f"crashed {died.node}: it {died.how}" + (f"; its log says: {line}" if line else "")


def leave(folder: pathlib.Path, died: Died) -> None:
    """Leaves the account of a crash in the run's folder. If this fails, the verdict stays."""
    try:
        faults = {(fault.text, fault.begin_time): fault for part in parts_of(folder)[-PARTS:] for fault in aftermath.read(part / HISTORY, -1)[1]}
        write_whole(folder / CRASH, "".join(line + "\n" for line in account(died, list(faults.values()))))
    except OSError as fault:
        print(f"jepmon: {folder / CRASH} can't be written: {fault.strerror}", file=sys.stderr)


def account(died: Died, faults: Sequence[Fault]) -> List[str]:
    """The account of a crash: when it was found, after which faults, and the log about it. `faults` also has the note of the crash."""
    notes = [fault for fault in faults if fault.text == folded(died.note)]
    others = [fault for fault in faults if fault not in notes]
    said = f"{died.node} {died.how}"
    if notes:
        moment = notes[-1].begin_time
        last, own = before(others, moment), before([fault for fault in others if died.node in nodes_of(fault.text)], moment)
        said += f". This was found at {seconds(moment)}" + (f", {since(others, moment)}" if last is not None else ", before any fault")
        if own is not None and own is not last:
            said += f". The last fault of {died.node}: {after_fault(own, moment)}"
    return [f"{said}.", *log_about(died)]


def log_about(died: Died) -> List[str]:
    """The log around the line that shows the crash. Without such a line, the end of the log and earlier lines about a crash."""
    lines = lines_of(died.log)
    place = next((place for place, line in enumerate(lines) if died.how == SAYS + line[:LONGEST]), None)
    shown, where = (lines[-SHOWN:], "ends") if place is None else (lines[max(0, place - BEFORE):][:SHOWN], "says around that line")
    said = hard(died.log)
    if place is None and said and said not in (line[:LONGEST] for line in shown):
        where = f'says "{said}", and ends'
    return [f"Its log, {died.log.name}, {where}:", *(f"    {line[:LONGEST]}" for line in shown)] if shown else []


def for_terminal(folder: pathlib.Path) -> List[str]:
    """The account; nothing if there was no crash."""
    try:
        return (folder / CRASH).read_text("utf-8").splitlines()
    except OSError:
        return []


def last_lines(log: pathlib.Path) -> List[str]:
    return lines_of(log)[-LAST:]


def lines_of(log: pathlib.Path) -> List[str]:
    """Since the node was started last."""
    try:
        text = log.read_text("utf-8", errors="replace")
    except OSError:
        return []
    return [line.strip() for line in text.rpartition(AGAIN)[2].split("\n") if line.strip()]


def hard(log: pathlib.Path) -> str:
    """The line that names a crash of the program itself, before its registers and its stack. Empty if there is no such line."""
    return next((line[:LONGEST] for line in lines_of(log)[-TRACE:] if HARD.search(line)), "")


def telling(lines: Sequence[str]) -> str:
    """The first of the last lines that reports a fault. Otherwise the last line."""
    found = next((line for line in lines if WORDS.search(line)), lines[-1] if lines else "")
    return found[:LONGEST]
