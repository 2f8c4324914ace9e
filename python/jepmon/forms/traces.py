"""Chrome's trace events (chrome://tracing, Perfetto): each complete event, of ph X, is an operation with a time and a duration in microseconds."""
from __future__ import annotations

import collections
from typing import Any, Counter, Dict, List

from . import Refused
from .account import Account

EVENTS = "traceEvents"
COMPLETE = "X"
BEGINS = ("B", "E", "b", "e", "n", "S", "T", "F")  # the ph of events that are only the begin or the end of an operation
OWN = {"op": "name", "start_us": "ts", "duration_us": "dur"}


def rows(line: int, events: List[Dict[str, Any]], account: Account) -> List[Dict[str, Any]]:
    """The operations of the events. Other events, such as names and counters, are only counted."""
    others: Counter[str] = collections.Counter()
    made = []
    for event in events:
        phase = event.get("ph")
        if phase == COMPLETE:
            made.append(_row(line, event))
        elif phase in BEGINS:
            raise Refused(f"line {line}: traceEvents of ph {phase} have their begin and their end apart: let them be complete events, of ph X")
        else:
            others[str(phase)] += 1
    for phase, count in others.items():
        account.field(f"{EVENTS} of ph {phase} ({count})")
    return made


def _row(line: int, event: Dict[str, Any]) -> Dict[str, Any]:
    """The fields of an operation: those of its args, and its own fields. Its client is its thread within its process."""
    own = {name: event[field] for name, field in OWN.items() if field in event}
    args = event.get("args", {})
    if not isinstance(args, dict):
        raise Refused(f"line {line}: the args of a traceEvent are not an object")
    if "tid" in event:
        own["client"] = f"{event.get('pid', 0)}/{event['tid']}"
    twice = next((name for name in args if name in own), None)
    if twice is not None:
        raise Refused(f"line {line}: the args of a traceEvent have {twice!r}, and the event itself has it too: say --mapping FILE")
    return {**own, **args}
