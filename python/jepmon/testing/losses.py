"""Acknowledged changes that are lost: messages of queues, members of sets and writes of registers. Each has the time of its
acknowledgement, and the fault that followed."""
from __future__ import annotations

import pathlib
from typing import Dict, Iterator, List, NamedTuple, Optional, Sequence

from ..history import Event
from ..history.fault_notes import Fault
from ..history.fault_times import ends_a_process, holding, seconds, since, until
from ..live import aftermath
from ..live.run_folder import HISTORY, LOST, write_whole
from .messages import Missing

SHOWN = 10  # lines for a terminal


class One(NamedTuple):
    """A value whose operation was acknowledged."""

    value: int
    moment: int  # the time of the acknowledgement, in nanoseconds from the beginning of the run
    fault: str  # the time to the fault that followed, in words; if no fault followed, the time since the last fault
    begun: int = 0  # the index of the event with which its operation began


class Acknowledged(NamedTuple):
    """The acknowledged changes of one key before an event, in the order of the acknowledgements."""

    values: List[One]

    @classmethod
    def of(cls, events: Sequence[Event], index: int, faults: Sequence[Fault]) -> Acknowledged:
        found = []
        begun: Dict[int, int] = {}  # for each process: the index at which its operation began
        for event in events:
            begun.setdefault(event.process, event.index)
            brought = brought_by(event)
            if event.kind == "ok" and event.index < index and brought is not None:
                moment = event.fields.get("time", 0)
                found.append(One(brought, moment, beside(faults, moment), begun[event.process]))
            if event.kind != "invoke":
                del begun[event.process]
        return cls(found)

    def after(self, index: int) -> List[One]:
        """Returns the values whose operation began after the event `index`."""
        return [one for one in self.values if one.begun > index]

    def missing(self, held: "frozenset[int]") -> List[One]:
        return [one for one in self.values if one.value not in held]


def known_from(events: Sequence[Event], index: int, value: object) -> int:
    """The first event before `index` that shows the value in a register: the end of an operation that brings it, or of a read. Otherwise
    -1."""
    return next((event.index for event in events if event.kind == "ok" and event.index < index and value in (brought_by(event), event.value)),
                -1)


def brought_by(event: Event) -> Optional[int]:
    """The value that an operation puts into its object."""
    if event.name == "cas" and isinstance(event.value, tuple):
        return event.value[1]
    return event.value if event.name in ("write", "add", "enqueue") and isinstance(event.value, int) else None


def beside(faults: Sequence[Fault], moment: int) -> str:
    """Returns, in words, the fault that was ending a process at this moment. Otherwise it is the fault that followed, or the last fault
    before the moment."""
    if any(map(ends_a_process, holding(faults, moment))):
        return since(faults, moment)
    return until(faults, moment) or since(faults, moment)


def told(one: One) -> str:
    """Returns a text such as "5 was acknowledged at 1.04 s, 0.07 s before .."."""
    return f"{one.value} was acknowledged at {seconds(one.moment)}" + (f", {one.fault}" if one.fault else "")


def many(lost: Sequence[One], of: int = 12) -> str:
    """These changes in one phrase, at most `of` of them, with the faults of the first and the last one."""
    shown = ", ".join(f"{one.value} (at {seconds(one.moment)})" for one in lost[:of]) + (f" and {len(lost) - of} more" if len(lost) > of else "")
    first, last = lost[0], lost[-1]
    faults = f"; the first one {first.fault}" if first.fault and len(lost) > 1 else f", {first.fault}" if first.fault else ""
    return f"acknowledged {shown}{faults}" + (f", the last one {last.fault}" if last.fault and len(lost) > 1 else "")


def line(name: str, one: One) -> str:
    """Returns a line of the list of losses."""
    return f"{name}: {told(one)}\n"


# --- Messages of queues ---


def leave(folder: pathlib.Path, lost: int, missing: Sequence[Missing]) -> None:
    """Lists the lost messages in the run's folder, in the order of their acknowledgements. May raise an OSError."""
    write_whole(folder / LOST, "".join(line + "\n" for line in lines(folder, lost, missing)))


def lines(folder: pathlib.Path, lost: int, missing: Sequence[Missing]) -> Iterator[str]:
    yield f"{lost} messages were acknowledged, and never came. This was counted, and is not proved."
    for queue in missing:
        if queue.may_have_come:
            yield (f"queue {queue.name}: {queue.may_have_come} of the {len(queue.values)} that are listed may have been taken by dequeues "
                   "that timed out")
    for name, one in sorted(acknowledgements(folder, missing), key=lambda each: each[1].moment):
        yield line(f"queue {name}", one).rstrip()


def acknowledgements(folder: pathlib.Path, missing: Sequence[Missing]) -> "Iterator[tuple[str, One]]":
    """The time at which each of these messages was acknowledged, by the histories of the parts. The times of a removed part are not
    known."""
    for queue in missing:
        path = folder / queue.part / HISTORY
        if not path.exists():
            continue
        events, faults = aftermath.read(path, queue.key)
        times: Dict[int, int] = {event.value: event.fields.get("time", 0) for event in events
                                 if event.kind == "ok" and event.name == "enqueue" and isinstance(event.value, int)}
        for value in sorted(queue.values):
            if value in times:
                yield queue.name, One(value, times[value], beside(faults, times[value]))


def for_terminal(folder: pathlib.Path) -> List[str]:
    """The first lines of the list; none if nothing is lost."""
    try:
        found = (folder / LOST).read_text("utf-8").splitlines()
    except OSError:
        return []
    return found if len(found) <= SHOWN + 1 else found[:SHOWN] + [f".. and {len(found) - SHOWN} more lines in {folder / LOST}"]
