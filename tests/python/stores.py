"""Histories of stores that are wrong in a known way: clients of a simulated store, in simulated time.

    stale_replica(seed).text      # each reads and writes; reads come from a replica that lags behind
"""
from __future__ import annotations

import heapq
import itertools
import random
from typing import Any, Callable, Dict, List, NamedTuple, Optional, Tuple

from jepmon.history.line import event_line, part_text

Result = Tuple[str, Any]  # "ok" and the answer, "fail", or "info"
Call = Tuple[str, Any]  # an operation's name and its part


class History(NamedTuple):
    text: str
    model: str
    concurrency: int


class Store:
    """A store: the effect of a call, at a moment of simulated time."""

    def __init__(self, draw: random.Random) -> None:
        self.draw = draw

    def call(self, now: float, client: int, call: Call) -> Result:
        raise NotImplementedError


class Simulation:
    """Clients that call a store. Each call takes effect at a moment between its invocation and its completion."""

    def __init__(self, store: Store, clients: int, key: int, draw: random.Random, timeouts: float = 0.0, slow: float = 1.0) -> None:
        self.store, self.clients, self.key, self.draw, self.timeouts, self.slow = store, clients, key, draw, timeouts, slow
        self.lines: List[str] = []
        self.process = list(range(clients))

    def run(self, calls: Callable[[int, int], Optional[Call]], until: int) -> str:
        """Runs until there are this many events. `calls` says what a client calls next, by its number and how many it has made; None ends
        the client."""
        turn = itertools.count()
        queue: List[Tuple[float, int, int, str, Any]] = [(self.draw.random(), next(turn), client, "think", None)
                                                         for client in range(self.clients)]
        made = [0] * self.clients
        while queue and len(self.lines) < until:
            now, _, client, what, call = heapq.heappop(queue)
            if what == "think":
                wanted = calls(client, made[client])
                made[client] += 1
                if wanted is None:
                    continue
                self.tell("invoke", client, wanted[0], wanted[1])
                delay = self.draw.expovariate(1.0) * self.slow
                heapq.heappush(queue, (now + delay, next(turn), client, "effect", wanted))
            elif what == "effect":
                result = self.store.call(now, client, call)
                if result[0] == "wait":
                    heapq.heappush(queue, (now + 0.2, next(turn), client, "effect", call))
                    continue
                if self.draw.random() < self.timeouts:
                    result = ("info", None)
                heapq.heappush(queue, (now + self.draw.expovariate(1.0) * self.slow, next(turn), client, "done", (call, result)))
            else:
                (name, part), (kind, answer) = call
                self.tell(kind, client, name, answer if kind == "ok" and name in ("read", "dequeue") else part)
                heapq.heappush(queue, (now + self.draw.expovariate(1.0), next(turn), client, "think", None))
        return "".join(self.lines)

    def tell(self, kind: str, client: int, name: str, part: Any) -> None:
        process = self.process[client]
        self.lines.append(event_line(kind, process, name, self.key, part_text(part)) + "\n")
        if kind == "info":
            self.process[client] += self.clients


class Replicated(Store):
    """A register whose reads come, now and then, from a replica that is some time behind; or that loses what came last."""

    def __init__(self, draw: random.Random, lag: float, stale: float, loses_at: float = 1e9) -> None:
        super().__init__(draw)
        self.lag, self.stale, self.loses_at = lag, stale, loses_at
        self.writes: List[Tuple[float, int]] = []

    def call(self, now: float, client: int, call: Call) -> Result:
        name, part = call
        if now > self.loses_at and self.writes:
            self.writes = [write for write in self.writes if write[0] < self.loses_at - self.lag]
            self.loses_at = 1e9
        if name == "write":
            self.writes.append((now, part))
            return "ok", None
        seen = now - self.lag if self.draw.random() < self.stale else now
        held = [value for when, value in self.writes if when <= seen]
        return "ok", held[-1] if held else None


def numbers(draw: random.Random, share: float) -> Callable[[int, int], Call]:
    """Each client writes numbers of its own, and reads between."""
    def calls(client: int, made: int) -> Call:
        return ("write", (client + 1) * 100 + made) if draw.random() < share else ("read", None)
    return calls


def stale_replica(seed: int = 1, events: int = 400) -> History:
    draw = random.Random(seed)
    return History(Simulation(Replicated(draw, 3.0, 0.05), 5, 3, draw).run(numbers(draw, 0.3), events), "register", 5)


def lost_write(seed: int = 1, events: int = 300) -> History:
    draw = random.Random(seed)
    return History(Simulation(Replicated(draw, 2.0, 0.0, 30.0), 4, 0, draw, 0.01).run(numbers(draw, 0.4), events), "register", 4)


class Cas(Store):
    """A register with cas, which compares with an old value of a cache."""

    def __init__(self, draw: random.Random, lag: float) -> None:
        super().__init__(draw)
        self.lag, self.values = lag, [(-1e9, 0)]  # type: float, List[Tuple[float, int]]
        self.written = False

    def call(self, now: float, client: int, call: Call) -> Result:
        name, part = call
        if name == "write":
            self.values.append((now, part))
            self.written = True
            return "ok", None
        if name == "read":
            return "ok", self.values[-1][1] if self.written else None
        seen = [value for when, value in self.values if when <= now - (self.lag if self.draw.random() < 0.3 else 0.0)]
        if not self.written or seen[-1] != part[0]:
            return "fail", None
        self.values.append((now, part[1]))
        return "ok", None


def two_winners(seed: int = 1, events: int = 400) -> History:
    """Two clients set over the same value."""
    draw = random.Random(seed)

    def calls(client: int, made: int) -> Call:
        name = draw.choice(("read", "write", "cas", "cas"))
        return name, None if name == "read" else draw.randrange(5) if name == "write" else (draw.randrange(5), draw.randrange(5))
    return History(Simulation(Cas(draw, 5.0), 4, 9, draw).run(calls, events), "cas-register", 4)


class Lease(Store):
    """A lock whose lease runs out."""

    def __init__(self, draw: random.Random, lease: float) -> None:
        super().__init__(draw)
        self.lease, self.holder, self.since = lease, -1, 0.0

    def call(self, now: float, client: int, call: Call) -> Result:
        if call[0] == "acquire":
            if self.holder >= 0 and now < self.since + self.lease:
                return ("wait", None)
            self.holder, self.since = client, now
            return "ok", None
        if self.holder == client:
            self.holder = -1
        return "ok", None


def lease_runs_out(seed: int = 1, events: int = 300, timeouts: float = 0.0) -> History:
    draw = random.Random(seed)

    def calls(client: int, made: int) -> Call:
        return ("acquire", None) if made % 2 == 0 else ("release", None)
    return History(Simulation(Lease(draw, 6.0), 4, 2, draw, timeouts).run(calls, events), "mutex", 4)


class Broker(Store):
    """A queue that, at a moment, does what it should not."""

    def __init__(self, draw: random.Random, fault: str, at: float) -> None:
        super().__init__(draw)
        self.fault, self.at = fault, at
        self.items: List[int] = []
        self.given: List[int] = []

    def call(self, now: float, client: int, call: Call) -> Result:
        name, part = call
        if name == "enqueue":
            self.items.append(part)
            return "ok", None
        is_due = now > self.at and self.fault != ""
        if is_due and self.fault == "twice" and self.given:
            self.fault = ""
            return "ok", self.given[-1]
        if is_due and self.fault == "invented":
            self.fault = ""
            return "ok", 99999
        if not self.items:
            return "fail", None
        if is_due and self.fault == "order" and len(self.items) > 2:
            self.fault = ""
            self.given.append(self.items.pop(2))
        else:
            self.given.append(self.items.pop(0))
        return "ok", self.given[-1]


def broker(fault: str, model: str, seed: int = 1, events: int = 300) -> History:
    """The fault is "twice", "order" or "invented"."""
    draw = random.Random(seed)

    def calls(client: int, made: int) -> Call:
        return ("enqueue", (client + 1) * 1000 + made) if client < 2 else ("dequeue", None)
    return History(Simulation(Broker(draw, fault, 40.0), 4, 1, draw, 0.0, 0.3).run(calls, events), model, 4)


class Forgetful(Store):
    """A set that loses a member at a moment."""

    def __init__(self, draw: random.Random, at: float) -> None:
        super().__init__(draw)
        self.at, self.members = at, []  # type: float, List[int]

    def call(self, now: float, client: int, call: Call) -> Result:
        if call[0] == "add":
            self.members.append(call[1])
            return "ok", None
        if now > self.at and len(self.members) > 3:
            self.members.pop(len(self.members) // 2)
            self.at = 1e9
        return "ok", frozenset(self.members)


def lost_member(seed: int = 1, events: int = 200) -> History:
    draw = random.Random(seed)

    def calls(client: int, made: int) -> Call:
        return ("add", client * 100 + made) if draw.random() < 0.4 else ("read", None)
    return History(Simulation(Forgetful(draw, 20.0), 4, 5, draw).run(calls, events), "set", 4)


def many_timeouts(seed: int = 1, events: int = 300) -> History:
    """A right store; more and more of its writes time out."""
    draw = random.Random(seed)
    return History(Simulation(Replicated(draw, 0.0, 0.0), 5, 0, draw, 0.12).run(numbers(draw, 0.4), events), "register", 5)


def many_consumers(seed: int = 1, events: int = 300) -> History:
    """A right queue without an order, with a backlog and consumers that wait."""
    draw = random.Random(seed)

    def calls(client: int, made: int) -> Call:
        return ("enqueue", (client + 1) * 1000 + made) if client < 4 else ("dequeue", None)
    return History(Simulation(Broker(draw, "", 1e9), 8, 1, draw, 0.0, 1.0).run(calls, events), "unordered-queue", 8)


WRONG: Dict[str, Callable[[], History]] = {
    "stale_replica": stale_replica,
    "lost_write": lambda: lost_write(2),
    "two_winners": two_winners,
    "lease_runs_out": lambda: lease_runs_out(4),
    "delivered_twice": lambda: broker("twice", "unordered-queue"),
    "delivered_twice_in_order": lambda: broker("twice", "fifo-queue"),
    "out_of_order": lambda: broker("order", "fifo-queue"),
    "invented": lambda: broker("invented", "fifo-queue"),
    "lost_member": lost_member,
}
UNKNOWN: Dict[str, Callable[[], History]] = {"many_timeouts": lambda: many_timeouts(2), "many_consumers": many_consumers}
