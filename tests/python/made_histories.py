"""Histories that are made for tests: clients of an object that answers rightly up to a moment, and then wrongly. Seeded, so
always the same."""
from __future__ import annotations

import random
from typing import Any, Dict, List, Optional, Tuple

from jepmon.history.line import event_line, part_text

from .shard_histories import OPERATIONS


class Store:
    """An object of a model; once it is wrong it answers what was right some time ago, or gives what it has given."""

    def __init__(self, model: str) -> None:
        self.model, self.wrong = model, False
        self.value: Optional[int] = None
        self.old: List[Any] = []
        self.members: List[int] = []

    def does(self, name: str, part: Any) -> Tuple[bool, Any]:
        """Whether the operation took place, and the part of its ok."""
        if name == "write":
            self.old.append(self.value)
            self.value = part
        elif name == "cas":
            if self.value != part[0]:
                return False, part
            self.old.append(self.value)
            self.value = part[1]
        elif name == "acquire":
            if self.members and not self.wrong:
                return False, None
            self.members = [1]
        elif name == "release":
            if not self.members:
                return False, None
            self.members = []
        elif name in ("enqueue", "add"):
            self.members.append(part)
        elif name == "dequeue":
            return self.taken()
        elif self.model == "set":
            return True, frozenset(self.members[:-3] if self.wrong else self.members)
        else:
            stale = [value for value in self.old[:-2] if value is not None and value != self.value]
            return True, stale[-1] if self.wrong and stale else self.value
        return True, part

    def taken(self) -> Tuple[bool, Any]:
        if self.wrong and self.old:
            return True, self.old[-1]
        if not self.members:
            return False, None
        value = self.members.pop(0)
        self.old.append(value)
        return True, value


def made(model: str, clients: int, count: int, seed: int = 1, wrong_from: Optional[int] = None, timeouts: float = 0.0,
         values: int = 0, key: int = 7, pause: float = 0.3, times: bool = False) -> str:
    """A history of `count` operations of one key. From operation `wrong_from` on the object is wrong. `timeouts` is the part of the
    changes that time out.
    Values are 1, 2, ..; or drawn from `values` of them. An idle client waits with the probability `pause`."""
    draw = random.Random(seed)
    store = Store(model)
    process = list(range(clients))
    open_: Dict[int, List[Any]] = {}  # by client: name, part, what came of it (None: nothing yet)
    lines: List[str] = []
    begun = at = 0

    def tell(kind: str, client: int, name: str, part: Any, further: str = "") -> None:
        clock = f", :time {at}" if times else ""
        lines.append(event_line(kind, process[client], name, key, part_text(part), clock + further))

    while begun < count or open_:
        at += draw.randrange(1, 2_000_000)
        client = draw.randrange(clients)
        store.wrong = wrong_from is not None and begun > wrong_from
        if client not in open_:
            if begun < count and draw.random() > pause:
                begun += 1
                name = draw.choice(OPERATIONS[model])
                number = draw.randrange(values) if values else begun
                part: Any = number if name in ("write", "enqueue", "add") else None
                if name == "cas":
                    part = (store.value or 0, number)
                open_[client] = [name, part, None]
                tell("invoke", client, name, part)
            continue
        name, part, came = open_[client]
        if came is None:
            open_[client][2] = store.does(name, part)
            continue
        del open_[client]
        if draw.random() < timeouts and name != "read":
            tell("info", client, name, part, ", :error :timeout")
            process[client] += clients
        elif came[0]:
            tell("ok", client, name, came[1])
        else:
            tell("fail", client, name, part)
    return "\n".join(lines) + "\n"
