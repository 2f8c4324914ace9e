"""Notes of faults in a history: the faults of a test, and their times.

A note has a line of its own between the events, as a discarded element, so that `jepmon check` and `jepmon script` skip it. Without the
`#_` it is an event of a nemesis as Jepsen writes them:

    #_{:type :info, :process :nemesis, :f :note, :value "kill n1", :time 8123456}            a moment
    #_{:type :info, :process :nemesis, :f :begin-fault, :value "cut n1 off", :time 8123456}  a fault begins
    #_{:type :info, :process :nemesis, :f :end-fault, :value "cut n1 off", :time 9123456}    the last begun fault with this text ends

The time is in nanoseconds since the beginning of the run, like the times of the events around it.
"""
from __future__ import annotations

import re
from typing import Dict, Iterable, List, NamedTuple, Optional

NOTE, BEGIN, END = "note", "begin-fault", "end-fault"
LONGEST = 1000  # a note has at most this many characters
OVER = "the faults are over"  # jepmon-test notes this once it has ended all faults
LINE = re.compile(
    r'#_\{:type :info, :process :nemesis, :f :(note|begin-fault|end-fault), :value "((?:[^"\\]|\\.)*)", :time ([0-9]+)\}'
)


class Fault(NamedTuple):
    """A fault in the notes of a history, between its events. A fault of one moment has its end at its beginning."""

    text: str
    begin: int  # the number of events before its beginning
    begin_time: int  # nanoseconds from the beginning of the run
    end: Optional[int]  # the number of events before its end; None if the history has no end of it
    end_time: Optional[int]


class Note(NamedTuple):
    """One line of a note."""

    kind: str  # "note", "begin-fault" or "end-fault"
    text: str
    time: int


def folded(text: str) -> str:
    """The text of a note in its kept form: one line, one blank for each white space, and UTF-8."""
    one_line = " ".join(text.split()).encode("utf-8", "replace").decode()
    if not 0 < len(one_line) <= LONGEST:
        raise ValueError(f"a note has 1 to {LONGEST} characters, not {len(one_line)}")
    return one_line


def note_line(kind: str, text: str, time: int) -> str:
    """The line of a note whose text is folded, without line feed."""
    escaped = text.replace("\\", "\\\\").replace('"', '\\"')
    return f'#_{{:type :info, :process :nemesis, :f :{kind}, :value "{escaped}", :time {time}}}'


def note_of(line: str) -> Optional[Note]:
    """Returns the note in a line of a history. None if the line is not a note."""
    found = LINE.fullmatch(line.strip()) if line.startswith("#_") else None
    if found is None:
        return None
    return Note(found.group(1), re.sub(r"\\(.)", r"\1", found.group(2)), int(found.group(3)))


def faults_of(lines: Iterable[str]) -> List[Fault]:
    """The faults in the notes of a history, in the order of their beginnings. Monitor has written the history, with one event in each
    line."""
    faults: List[Fault] = []
    held: Dict[str, List[int]] = {}  # the places in the list of faults that have not ended, by text
    events = 0
    for line in lines:
        note = note_of(line)
        if note is None:
            events += line.startswith("{")
        elif note.kind == END:
            if held.get(note.text):
                place = held[note.text].pop()
                faults[place] = faults[place]._replace(end=events, end_time=note.time)
        else:
            if note.kind == BEGIN:
                held.setdefault(note.text, []).append(len(faults))
            is_moment = note.kind == NOTE
            faults.append(Fault(note.text, events, note.time, events if is_moment else None, note.time if is_moment else None))
    return faults
