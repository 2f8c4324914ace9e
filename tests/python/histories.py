"""Random histories of one key: clients of an object that is right, or that goes wrong now and then."""
from __future__ import annotations

import random
from typing import Any, Dict, List, NamedTuple, Optional, Tuple

from jepmon.history import Event
from jepmon.history.line import event_line, part_text
from jepmon.objects import START, rule

from .shard_histories import OPERATIONS

NAMES = {**OPERATIONS, "cas-register": ("read", "write", "cas", "cas")}


class Way(NamedTuple):
    """How a history is drawn: how many events and clients, from how many values, and how often what happens."""

    events: int = 24
    clients: int = 3
    values: int = 4
    crash: float = 0.1  # an operation times out
    patience: float = 0.25  # what can't take place, as an acquire of a held lock, waits and does not fail
    wrong: float = 0.0  # an answer, or what failed, is not what took place
    alien: float = 0.0  # an operation that the object does not have


class Open(NamedTuple):
    invocation: Event
    outcome: Optional[Tuple[Any, Any]]  # taken place: the state after it, and what was found; None: not yet
    tried: bool


class Clients:
    """The clients' processes, over any number of histories that stand one after the other."""

    def __init__(self, random_numbers: random.Random, clients: int) -> None:
        self.random, self.clients = random_numbers, clients
        self.process = list(range(clients))
        self.index = 0

    def event(self, kind: str, client: int, name: str, key: int, value: Any) -> Event:
        process = self.process[client]
        text = event_line(kind, process, name, key, part_text(value))
        self.index += 1
        if kind == "info":
            self.process[client] += self.clients
        return Event(self.index - 1, kind, process, name, key, value, self.index, text, {})

    def history(self, model: str, way: Way, key: int = 0) -> List[Event]:
        """A history of this key, in which each operation has ended at the end."""
        draw = self.random
        state: Any = START[model]
        opened: Dict[int, Open] = {}
        events: List[Event] = []
        lurking: List[Event] = []  # crashed, and not yet taken place
        while len(events) < way.events or opened:
            client = draw.randrange(self.clients)
            if lurking and draw.random() < 0.1:
                state = self.took_place(model, lurking.pop(draw.randrange(len(lurking))), state)[0]
            if client not in opened:
                if len(events) < way.events:
                    events.append(self.invoked(model, way, client, key))
                    opened[client] = Open(events[-1], None, False)
            elif not opened[client].tried:
                outcomes = self.outcomes(model, opened[client].invocation, state)
                taken = draw.choice(outcomes) if outcomes else None
                opened[client] = Open(opened[client].invocation, taken, True)
                state = taken[0] if taken is not None else state
            elif opened[client].outcome is None and len(events) < 2 * way.events and draw.random() < way.patience:
                opened[client] = opened[client]._replace(tried=False)
            else:
                was = opened.pop(client)
                events.append(self.ended(model, way, client, was))
                if events[-1].kind == "info" and was.outcome is None:
                    lurking.append(was.invocation)
        return events

    def invoked(self, model: str, way: Way, client: int, key: int) -> Event:
        draw = self.random
        names = NAMES[model] if draw.random() >= way.alien else NAMES[draw.choice(sorted(NAMES))]
        name = draw.choice(names)
        value: Any = None
        if name == "cas":
            value = draw.randrange(way.values), draw.randrange(way.values)
        elif name in ("write", "enqueue", "add"):
            value = draw.randrange(way.values)
        return self.event("invoke", client, name, key, value)

    def outcomes(self, model: str, invocation: Event, state: Any) -> List[Tuple[Any, Any]]:
        return rule(model, invocation.name)(state, invocation.value)

    def took_place(self, model: str, invocation: Event, state: Any) -> Tuple[Any, Any]:
        outcomes = self.outcomes(model, invocation, state)
        return self.random.choice(outcomes) if outcomes else (state, None)

    def ended(self, model: str, way: Way, client: int, was: Open) -> Event:
        draw, invocation = self.random, was.invocation
        name, key, value = invocation.name, invocation.key, invocation.value
        is_wrong = draw.random() < way.wrong
        if draw.random() < way.crash:
            return self.event("info", client, name, key, value)
        if (was.outcome is None) != (is_wrong and name not in ("read", "dequeue")):
            return self.event("fail", client, name, key, value)
        if name == "read":
            found = was.outcome[1] if was.outcome is not None else None
            value = self.wrong_answer(model, way, found) if is_wrong else found
            if model in ("register", "cas-register") and draw.random() < 0.1:
                value = None
        elif name == "dequeue":
            value = draw.randrange(way.values) if is_wrong or was.outcome is None else was.outcome[1]
        return self.event("ok", client, name, key, value)

    def wrong_answer(self, model: str, way: Way, found: Any) -> Any:
        draw = self.random
        if model != "set":
            return draw.randrange(way.values)
        if draw.random() < 0.05:
            return None
        return (found or frozenset()) ^ {draw.randrange(way.values)}


def text_of(events: List[Event]) -> bytes:
    return "".join(event.text + "\n" for event in events).encode()
