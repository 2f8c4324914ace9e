"""Events of a nemesis: the faults that jepmon accepts (docs/FORMATS.md, Events), and the event that ends each fault."""
from __future__ import annotations

from typing import Dict, Optional, Tuple

from ..edn import Many, Value, integer

REPLICAS = range(7)
LOST = range(1 << 16)  # replies
# The event that ends a fault, by the name of the event that begins it: jepmon's own faults, and those of Jepsen's nemeses.
ENDED_BY = {
    "partition": ("heal",),
    "pause": ("resume",),
    "crash": ("restart",),
    "kill": ("restart", "start"),
    "start": ("stop",),
    "bump-clock": ("reset-clock",),
    "strobe-clock": ("reset-clock",),
}
STARTS, STOPS = "start-", "stop-"


def is_fault(fields: Dict[str, Value]) -> bool:
    """Whether this is one of jepmon's own faults. A test may have other faults."""
    name, value = fields.get(":f"), fields.get(":value")
    if fields.get(":process") != ":nemesis" or fields.get(":type") != ":info":
        return False
    number = integer(value)
    if name == ":partition":
        return is_partition(value)
    if name == ":lose-replies":
        return number in LOST
    return name == ":heal" and value == "nil" or name in (":pause", ":resume", ":crash", ":restart") and number in REPLICAS


def is_partition(value: Optional[Value]) -> bool:
    """Whether the value is a vector of vectors of replica numbers, each at most once."""
    if not isinstance(value, Many) or value.opened != "[":
        return False
    if not all(isinstance(group, Many) and group.opened == "[" for group in value.members):
        return False
    numbers = [integer(replica) for group in value.members for replica in group.members]
    return all(number in REPLICAS for number in numbers) and len(set(numbers)) == len(numbers)


def ended_by(name: str) -> Tuple[str, ...]:
    """The names of the events that end a fault of this name. Empty if it is a fault of one moment, or is not known."""
    return (STOPS + name[len(STARTS):],) if name.startswith(STARTS) else ENDED_BY.get(name, ())
