"""Random histories of an atomic object. Each operation takes place at a random moment between its call and its return, so the history is
legal. `changed` gives the same history with one answer changed, which may be illegal (truth.py asks the proved program)."""
from __future__ import annotations

import random
from typing import Any, Dict, List, NamedTuple, Optional, Tuple

from tests.python.shard_histories import OPERATIONS, Store

MODELS = tuple(OPERATIONS)
REGISTERS = ("register", "cas-register")


class Op(NamedTuple):
    """An operation of a client, with the times of its call and its return: no two times of a history are equal."""

    client: int
    name: str
    key: int
    part: Any  # what is asked: None, an integer, or the two of a cas
    answer: Any  # what an ok read or dequeue found: an integer, a set of members, or None
    call: int
    end: Optional[int]  # None: it never returned
    outcome: str  # "ok", "fail" or "info"


class Size(NamedTuple):
    clients: int
    operations: int
    keys: int
    values: int  # values 1 to so many; 0: each value is written once
    crashes: float


def size_of(chance: random.Random, keys: int) -> Size:
    return Size(chance.choice((1, 2, 3, 4)), chance.randrange(3, 16), keys, chance.choice((0, 0, 3)), chance.choice((0, 0.15)))


def simulated(chance: random.Random, model: str, size: Size) -> List[Op]:
    """A legal history, in the order of the calls."""
    return sorted(_Simulation(chance, model, size).operations(), key=lambda op: op.call)


def changed(chance: random.Random, model: str, ops: List[Op]) -> Optional[List[Op]]:
    """The history with one answer changed: another value, a member more or less, a lock that is held twice. None if it has no such answer."""
    places = [place for place, op in enumerate(ops) if _may_change(model, op)]
    written = sorted({op.part[1] if op.name == "cas" else op.part for op in ops if op.part is not None})
    if not places or not (written or model == "mutex"):
        return None
    place = chance.choice(places)
    op = ops[place]
    if model == "mutex":
        op = op._replace(outcome="ok")
    elif model == "set":
        op = op._replace(answer=op.answer ^ {chance.choice(written)})
    else:
        op = op._replace(answer=chance.choice(written))
    return ops[:place] + [op] + ops[place + 1:]


def _may_change(model: str, op: Op) -> bool:
    if model == "mutex":
        return op.outcome == "fail"
    return op.outcome == "ok" and op.name in ("read", "dequeue") and op.answer is not None


class _Simulation:
    """One history of one object a key."""

    def __init__(self, chance: random.Random, model: str, size: Size) -> None:
        self.chance, self.model, self.size = chance, model, size
        self.store = Store(model, chance)
        self.holders: Dict[int, int] = {}
        self.last = 0

    def operations(self) -> List[Op]:
        return [self.operation(client, call, end) for call, _, end, client in sorted(self.plan(), key=lambda plan: plan[1])]

    def plan(self) -> List[Tuple[int, int, int, int]]:
        """For each operation the ranks of its call, of the moment at which it takes place, and of its return; and its client, who does one
        operation after the other."""
        chance = self.chance
        free = [chance.randrange(20) for _ in range(self.size.clients)]
        marks: List[Tuple[int, float, int, int]] = []
        clients = []
        for place in range(self.size.operations):
            client = chance.randrange(self.size.clients)
            call = free[client] + chance.randrange(1, 6)
            point = call + chance.randrange(1, 8)
            free[client] = point + chance.randrange(1, 8)
            marks += [(mark, chance.random(), place, side) for side, mark in enumerate((call, point, free[client]))]
            clients.append(client)
        ranks = {(place, side): rank for rank, (_, _, place, side) in enumerate(sorted(marks), 1)}
        return [(ranks[place, 0], ranks[place, 1], ranks[place, 2], client) for place, client in enumerate(clients)]

    def operation(self, client: int, call: int, end: int) -> Op:
        chance = self.chance
        key = chance.randrange(self.size.keys)
        name, part = self.asked(client, key)
        took, answer = self.store.does(name, key, part)
        if took and name in ("acquire", "release"):
            self.holders[key] = client if name == "acquire" else -1
        answer = answer if took and name in ("read", "dequeue") else None
        if not took or self.model == "mutex" or chance.random() >= self.size.crashes:
            return Op(client, name, key, part, answer, call, end, "ok" if took else "fail")
        return Op(client, name, key, part, None, call, end if chance.random() < 0.5 else None, "info")

    def asked(self, client: int, key: int) -> Tuple[str, Any]:
        chance = self.chance
        if self.model == "mutex":
            return "release" if self.holders.get(key) == client else "acquire", None
        name = chance.choice(OPERATIONS[self.model] + (("read",) if self.model in REGISTERS else ()))
        if name == "cas":
            state = self.store.states.get(key)
            return name, (state if state is not None and chance.random() < 0.7 else chance.randrange(1, 5), self.fresh())
        return name, self.fresh() if name in ("write", "add", "enqueue") else None

    def fresh(self) -> int:
        self.last += 1
        return self.chance.randrange(1, self.size.values + 1) if self.size.values else self.last
