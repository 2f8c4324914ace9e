"""Names the fault that came before an event of a cause."""
from __future__ import annotations

from typing import Sequence

from ..history import Event
from ..history.fault_notes import OVER, Fault
from ..history.fault_times import quoted, since


def before(faults: Sequence[Fault], event: Event) -> str:
    """Says how long after the last fault the event came: `0.07 s after "n1 is down, by kill -9" began`. If the history has no times, names
    only the fault. The text is empty if no fault had begun by then."""
    moment = event.fields.get("time")
    if isinstance(moment, int) and any(fault.begin_time for fault in faults):
        return since(faults, moment)
    begun = [fault for fault in faults if fault.begin <= event.index and fault.text != OVER]
    if not begun:
        return ""
    last = max(begun, key=lambda fault: fault.begin)
    if last.end == last.begin:
        return f"after {quoted(last)}"
    return f"after {quoted(last)} " + ("began" if last.end is None or last.end > event.index else "ended")


def of_event(faults: Sequence[Fault], event: Event) -> str:
    """Returns the sentence about the event that the verdict names."""
    last = before(faults, event)
    return f"Event {event.index} came {last}." if last else ""
