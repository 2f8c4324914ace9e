"""The faults of a history: those that Jepsen's nemesis records, jepmon's own faults, and the notes of a live test."""
from __future__ import annotations

from typing import Callable, Dict, Iterable, Iterator, List, Sequence, Tuple

from .. import edn, history
from ..from_jepsen.events import Left
from ..history import fault_notes as notes
from ..history.fault_notes import Fault
from ..history.nemesis_faults import ended_by

SHOWN = 60  # at most this many characters of a text of a nemesis are shown


class _Note:
    """An operation of a nemesis: its beginning and its end, each as the number of earlier events and as a time."""

    def __init__(self, name: str, value: str, first: Tuple[int, int], last: Tuple[int, int]) -> None:
        self.name, self.value, self.first, self.last = name, value, first, last

    @property
    def text(self) -> str:
        return f"{self.name} {self.value}".strip()


def of_nemesis(left: Iterable[Left], before: int) -> List[Fault]:
    """The faults that a Jepsen nemesis records. `before` events come before the history's own. The history has each operation of the
    nemesis twice, at its beginning and at its end. A fault lasts from the beginning of the operation that starts it to the end of the
    operation that ends it."""
    begun: Dict[str, Left] = {}
    made: List[_Note] = []
    for event in left:
        first = begun.pop(event.name, None)
        if first is None:
            begun[event.name] = event
        else:
            made.append(_note(before, first, event))
    made += [_note(before, event, event) for event in begun.values()]
    return of_notes(sorted(made, key=lambda note: note.first))


def _note(before: int, first: Left, last: Left) -> _Note:
    value = "" if last.value == "nil" else edn.shown(last.value, SHOWN)
    return _Note(first.name.lstrip(":"), value, (before + first.before, first.time), (before + last.before, last.time))


def of_notes(made: Sequence[_Note]) -> List[Fault]:
    """The faults of a nemesis. A fault lasts until the operation that ends it, or until the end of the history. Otherwise it is a
    moment."""
    faults: List[Fault] = []
    held: Dict[int, str] = {}  # the names of the faults that still last, by their places in `found`
    for note in made:
        ended = [place for place, name in held.items() if note.name in ended_by(name)]
        for place in ended:
            faults[place] = faults[place]._replace(end=note.last[0], end_time=note.last[1])
            del held[place]
        if ended:
            continue
        if ended_by(note.name):
            held[len(faults)] = note.name
            faults.append(Fault(note.text, note.first[0], note.first[1], None, None))
        else:
            faults.append(Fault(note.text, note.first[0], note.first[1], note.last[0], note.last[1]))
    return faults


def of_text(text: str) -> List[Fault]:
    """The faults in a history in jepmon's own form: in notes, and in events of its nemesis."""
    return of_lines(lambda: text.split("\n")) if ":nemesis" in text else []


def of_lines(lines: Callable[[], Iterable[str]]) -> List[Fault]:
    """Returns the faults in these lines. Reads the lines twice."""
    return sorted(notes.faults_of(lines()) + of_notes(list(_own(lines()))), key=lambda fault: fault.begin)


def _own(lines: Iterable[str]) -> Iterator[_Note]:
    index = -1
    for line in lines:
        if line.startswith("{"):
            index += 1
            if ":process :nemesis" in line:
                event = history.read_history(line, index)[0]
                time = event.fields.get("time")
                at = index, time if isinstance(time, int) else 0
                value = event.fields.get("value")
                yield _Note(event.name, "" if value is None else str(value), at, at)


def noted(text: str, faults: Sequence[Fault]) -> str:
    """The events of a text, an event a line, with notes of these faults between them."""
    marks: Dict[int, List[str]] = {}  # the notes, by the number of events before them
    for fault in faults:
        folded = notes.folded(fault.text[:notes.LONGEST])
        kind = notes.NOTE if fault.end == fault.begin else notes.BEGIN
        marks.setdefault(fault.begin, []).append(notes.note_line(kind, folded, fault.begin_time) + "\n")
        if fault.end is not None and kind == notes.BEGIN:
            marks.setdefault(fault.end, []).append(notes.note_line(notes.END, folded, fault.end_time or 0) + "\n")
    lines = text.splitlines(keepends=True)
    return "".join("".join(marks.get(place, ())) + line for place, line in enumerate(lines + [""]))
