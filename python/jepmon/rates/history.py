"""Reads a history with times for the page of rates: each operation, the counts of each key, and the faults."""
from __future__ import annotations

from typing import Dict, Iterable, List, NamedTuple

from ..history.fault_notes import BEGIN, END, note_of
from ..history.kinds import ABSENT
from ..history.line import LINE, TIME
from .gathered import Gathered

SLACK = 1_000_000  # the notes of one fault in two parts are at most this many nanoseconds apart


class Fault(NamedTuple):
    """A fault and its time, in nanoseconds since the beginning of the run. A fault of one moment ends when it begins."""

    text: str
    begin: int
    end: int


class Key:
    """The operations of a key by outcome."""

    def __init__(self, begin: int) -> None:
        self.begin, self.end = begin, begin  # the times of its first and last event
        self.ok = self.fail = self.info = self.open = 0

    def count(self, outcome: str, now: int) -> None:
        setattr(self, outcome, getattr(self, outcome) + 1)
        self.end = now


class Read:
    """The facts in a history. Faults that have not ended end with it."""

    def __init__(self) -> None:
        self.keys: Dict[int, Key] = {}
        self.faults: List[Fault] = []
        self.untimed = 0  # the number of events without a time, which are left out


class Begun(NamedTuple):
    """An open operation. A first write of ABSENT to a key is the initial value of the key, and not an operation."""

    name: str
    time: int
    key: int
    counts: bool


def read(lines: Iterable[str], gathered: Gathered) -> Read:
    """Reads a history of one event a line, as Monitor writes it."""
    reader = Reader(gathered)
    for line in lines:
        reader.line(line)
    return reader.finish()


class Reader:
    """Takes the events of a history in their order."""

    def __init__(self, gathered: Gathered) -> None:
        self.gathered, self.found = gathered, Read()
        self._opened: Dict[str, Begun] = {}  # the open operation of each process
        self._held: Dict[str, List[int]] = {}  # the begins of faults that have not ended, by text

    def line(self, line: str) -> None:
        """Takes a line as Monitor writes it."""
        if line.startswith("{"):
            told = LINE.match(line)
            time = TIME.search(told[6] or "") if told is not None else None
            if told is None or time is None:
                self.found.untimed += 1
            else:
                self.event(told[1], told[2], told[3], int(told[4]), told[5], int(time[1]))
        elif line.startswith("#_"):
            self._note(line)

    def event(self, kind: str, process: str, name: str, key: int, part: str, now: int) -> None:
        if kind == "invoke":
            counts = key in self.found.keys or name != "write" or part != str(ABSENT)
            self.found.keys.setdefault(key, Key(now))
            self._opened[process] = Begun(name, now, key, counts)
            return
        begun = self._opened.pop(process, None)
        if begun is not None and begun.counts:
            self.gathered.add(begun.name, kind, begun.time, now)
            self.found.keys[begun.key].count(kind, now)

    def _note(self, line: str) -> None:
        note = note_of(line)
        if note is None:
            return
        if note.kind == BEGIN:
            self._held.setdefault(note.text, []).append(note.time)
        elif note.kind != END:
            self.found.faults.append(Fault(note.text, note.time, note.time))
        elif self._held.get(note.text):
            self.found.faults.append(Fault(note.text, self._held[note.text].pop(), note.time))

    def finish(self) -> Read:
        """Ends the history."""
        for begun in self._opened.values():
            if begun.counts:
                self.gathered.open[begun.name] += 1
                self.found.keys[begun.key].open += 1
        for text, begins in self._held.items():
            self.found.faults += [Fault(text, begin, max(begin, self.gathered.end)) for begin in begins]
        self.found.faults.sort(key=lambda fault: fault.begin)
        return self.found


def joined(faults: Iterable[Fault]) -> List[Fault]:
    """The faults, ordered by their beginnings. Faults with the same text that meet are one fault: each part of a run notes a fault, and a
    nemesis may begin a fault that is already active."""
    last: Dict[str, Fault] = {}
    made: List[Fault] = []
    for fault in sorted(faults, key=lambda each: each.begin):
        before = last.get(fault.text)
        if before is not None and fault.begin <= before.end + SLACK:
            last[fault.text] = before._replace(end=max(before.end, fault.end))
            continue
        if before is not None:
            made.append(before)
        last[fault.text] = fault
    return sorted([*made, *last.values()], key=lambda each: (each.begin, each.text))
