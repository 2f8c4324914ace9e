"""Random scripts of registers, sets or queues, with rewinds, for comparisons of kinds of objects that judge the same histories."""
from __future__ import annotations

import random
from typing import Dict, FrozenSet, Iterator, List, NamedTuple, Tuple, Union

from jepmon.history.line import event_line, part_text

Value = Union[None, int, FrozenSet[int], Tuple[int, ...]]  # of a cas its two numbers, and of a queue all that it holds
OPERATIONS = {  # of each model, the one that answers first
    "register": ("read", "write"), "cas-register": ("read", "write", "cas"), "set": ("read", "add"),
    "fifo-queue": ("dequeue", "enqueue"), "unordered-queue": ("dequeue", "enqueue"),
}
ANSWERED = ("read", "dequeue")
FRESH = 1000  # by so many values those of a queue differ


class Way(NamedTuple):
    """How a history is drawn: how many events, clients, keys and values, and how often what happens."""

    events: int
    clients: int
    keys: int
    values: int
    reads: float
    crash: float
    fail: float
    wrong: float
    rewinds: float
    slow: float  # an operation stays open though it has taken place


class Open(NamedTuple):
    """An open operation: its invocation's index, and what it found if it took place."""

    op: int
    key: int
    name: str
    value: Value
    took: bool
    found: Value


class Event(NamedTuple):
    """An event of the operation that event `op` invoked."""

    kind: str
    op: int
    process: int
    key: int
    name: str
    value: Value

    def __str__(self) -> str:
        return event_line(self.kind, self.process, self.name, self.key, part_text(self.value))


Line = Union[Event, int]  # an event, or how many events a rewind keeps


class Moment(NamedTuple):
    processes: Tuple[int, ...]
    running: Dict[int, Open]
    lurking: Tuple[Open, ...]  # changes that have crashed and not yet taken place
    states: Dict[int, Value]


def spelled_line(line: Line) -> str:
    return f"[:rewind {line}]" if isinstance(line, int) else str(line)


def drawn_way(chance: random.Random, clients: int) -> Way:
    """A third of the histories have wrong answers, and a third have rewinds."""
    return Way(chance.choice((5, 12, 20, 30, 45, 60)), clients, chance.choice((1, 1, 1, 2, 3)), chance.choice((1, 2, 3, 5, 1000)),
               chance.choice((0.3, 0.5, 0.9)), chance.choice((0, 0, 0.05, 0.3)), chance.choice((0, 0.05, 0.2)),
               chance.choice((0, 0, 0.08)), chance.choice((0, 0, 0.03)), chance.choice((0, 0.5, 0.8)))


class Clients:
    """Clients of objects of one model, each operation of which takes place at a random moment while it is open, or never."""

    def __init__(self, chance: random.Random, way: Way, model: str) -> None:
        self.chance, self.way, self.model = chance, way, model
        self.begin: Value = frozenset() if model == "set" else () if model.endswith("queue") else None
        self.moments = [Moment(tuple(range(way.clients)), {}, (), {})]

    def lines(self) -> Iterator[Line]:
        """The events and rewinds of one history."""
        while len(self.moments) <= self.way.events:
            if self.chance.random() < self.way.rewinds:
                kept = self.chance.randrange(len(self.moments))
                del self.moments[kept + 1:]
                yield kept
            else:
                yield self.next_event()

    def next_event(self) -> Event:
        now = self.moments[-1]._replace(running=dict(self.moments[-1].running), states=dict(self.moments[-1].states))
        while True:
            now = self.anyone_takes_place(now)
            thread = self.chance.randrange(self.way.clients)
            if thread not in now.running:
                return self.invoked(now, thread)
            if self.chance.random() < (1 - self.way.slow if now.running[thread].took else 0.1):
                return self.ended(now, thread)

    def anyone_takes_place(self, now: Moment) -> Moment:
        """An open operation, or a crashed one, takes place now and then."""
        waiting = [thread for thread, each in now.running.items() if not each.took]
        if waiting and self.chance.random() < 0.6:
            thread = self.chance.choice(waiting)
            now.running[thread] = self.taken(now, now.running[thread])
        if now.lurking and self.chance.random() < 0.1:
            place = self.chance.randrange(len(now.lurking))
            self.taken(now, now.lurking[place])
            return now._replace(lurking=now.lurking[:place] + now.lurking[place + 1:])
        return now

    def taken(self, now: Moment, each: Open) -> Open:
        """The operation as it takes place, if it can."""
        state = now.states.get(each.key, self.begin)
        if each.name == "read":
            return each._replace(took=True, found=state)
        found, after = self.outcome(each, state)
        if after is None:
            return each
        now.states[each.key] = after
        return each._replace(took=True, found=found)

    def outcome(self, each: Open, state: Value) -> Tuple[Value, Value]:
        """The answer of a change, and the state after it; None if it can't take place."""
        if isinstance(state, frozenset) and isinstance(each.value, int):
            return each.value, state | {each.value}
        if each.name == "cas" and isinstance(each.value, tuple):
            return each.value, each.value[1] if state == each.value[0] else None
        if not isinstance(state, tuple):
            return each.value, each.value
        if each.name == "enqueue" and isinstance(each.value, int):
            return each.value, (*state, each.value)
        place = 0 if self.model == "fifo-queue" or not state else self.chance.randrange(len(state))
        return (state[place], state[:place] + state[place + 1:]) if state else (None, None)

    def invoked(self, now: Moment, thread: int) -> Event:
        answered, *changes = OPERATIONS[self.model]
        key, name, op = self.chance.randrange(self.way.keys), answered, len(self.moments) - 1
        value: Value = None
        if self.chance.random() >= (min(self.way.reads, 0.6) if self.begin == () else self.way.reads):
            name = self.chance.choice(changes)
            value = op if self.begin == () and self.way.values == FRESH else self.chance.randrange(self.way.values)
        if name == "cas":
            state = now.states.get(key)
            old = state if isinstance(state, int) and self.chance.random() < 0.7 else self.chance.randrange(self.way.values)
            value = (old, self.chance.randrange(self.way.values))
        now.running[thread] = Open(op, key, name, value, False, None)
        self.moments.append(now)
        return Event("invoke", op, now.processes[thread], key, name, value)

    def ended(self, now: Moment, thread: int) -> Event:
        each = now.running.pop(thread)
        is_wrong, process = self.chance.random() < self.way.wrong, now.processes[thread]
        kind, value = "ok", each.found if each.took else each.value
        if self.chance.random() < self.way.crash:
            kind, value = "info", each.value
            processes = now.processes[:thread] + (process + self.way.clients,) + now.processes[thread + 1:]
            lurking = now.lurking + ((each,) if not each.took and each.name != "read" else ())
            now = now._replace(processes=processes, lurking=lurking)
        elif each.name == "dequeue":
            kind, value = "ok" if each.took or is_wrong else "fail", self.answer(each, is_wrong) if each.took or is_wrong else None
        elif each.name == "read":
            kind, value = ("fail", None) if not each.took or self.chance.random() < self.way.fail else ("ok", self.answer(each, is_wrong))
        elif each.took == is_wrong:
            kind, value = "fail", each.value
        self.moments.append(now)
        return Event(kind, each.op, process, each.key, each.name, value)

    def answer(self, each: Open, is_wrong: bool) -> Value:
        if self.chance.random() < 0.05 and each.name == "read":
            return None if self.model != "set" or is_wrong else each.found
        value = self.chance.randrange(min(self.way.values, len(self.moments)) if each.name == "dequeue" else self.way.values)
        if not is_wrong:
            return each.found
        return each.found ^ {value} if isinstance(each.found, frozenset) else value


def texts(lines: List[Line]) -> List[str]:
    return [spelled_line(line) for line in lines]
