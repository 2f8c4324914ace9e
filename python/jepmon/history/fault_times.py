"""Names in words the faults around a moment of a history: the fault that began last before it, and the fault that began next after it."""
from __future__ import annotations

import re
from typing import List, Optional, Sequence

from .fault_notes import OVER, Fault
from .fault_texts import kind_of, plain

SECOND = 1_000_000_000
HARD = re.compile(r"kill|power|crash|down\b|restart|torn", re.I)  # words in the text of a fault that ends a process
LISTED = 3  # at most this many active faults are named


def before(faults: Sequence[Fault], moment: int) -> Optional[Fault]:
    """The fault that began last before this moment, in nanoseconds from the begin of the run."""
    begun = [fault for fault in faults if fault.begin_time <= moment and fault.text != OVER]
    return max(begun, key=lambda fault: fault.begin_time) if begun else None


def after(faults: Sequence[Fault], moment: int) -> Optional[Fault]:
    """The fault that began first after this moment."""
    later = [fault for fault in faults if fault.begin_time > moment and fault.text != OVER]
    return min(later, key=lambda fault: fault.begin_time) if later else None


def since(faults: Sequence[Fault], moment: int) -> str:
    """Says how long after the last fault the moment comes, and which other faults are active then: `0.07 s after "n1 is down, by kill -9"
    began`. The text is empty if no fault began before the moment."""
    last = before(faults, moment)
    if last is None:
        return ""
    others = holding([fault for fault in faults if fault is not last], moment)
    return after_fault(last, moment) + (f", while {' and '.join(map(quoted, others[:LISTED]))} held" if others else "")


def after_fault(fault: Fault, moment: int) -> str:
    began = f"{seconds(moment - fault.begin_time)} after {quoted(fault)}"
    if fault.end_time == fault.begin_time:  # a fault of one moment
        return began
    if fault.end_time is None or fault.end_time > moment:
        return f"{began} began"
    return f"{began} began, {seconds(moment - fault.end_time)} after it ended"


def until(faults: Sequence[Fault], moment: int) -> str:
    """Says how long before the next fault the moment comes: `0.07 s before "n1 is down, by kill -9" began`. If the next fault that ended a
    process is another one, the text has it too. The text is empty if no fault began after the moment."""
    following = after(faults, moment)
    hard = after(list(filter(ends_a_process, faults)), moment)
    named = [fault for fault in (following, hard if hard is not following else None) if fault is not None]
    return " and ".join(before_fault(fault, moment) for fault in named)


def before_fault(fault: Fault, moment: int) -> str:
    is_moment = fault.end_time == fault.begin_time
    return f"{seconds(fault.begin_time - moment)} before {quoted(fault)}" + ("" if is_moment else " began")


def holding(faults: Sequence[Fault], moment: int) -> List[Fault]:
    return [fault for fault in faults if fault.begin_time <= moment and fault.text != OVER
            and fault.end_time != fault.begin_time and (fault.end_time is None or fault.end_time > moment)]


def ends_a_process(fault: Fault) -> bool:
    return HARD.search(f"{kind_of(fault.text)} {plain(fault.text)}") is not None


def quoted(fault: Fault) -> str:
    return f'"{plain(fault.text)}"'


def seconds(time: int) -> str:
    return f"{time / SECOND:.2f} s"
