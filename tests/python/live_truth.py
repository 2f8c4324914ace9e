"""Random live tests whose verdict is known: clients of an atomic store, with timeouts, failures and blocks in one another, of a Monitor or a
LongMonitor. The answers of the store are right, or one client invents some: values that nobody wrote."""
from __future__ import annotations

import itertools
import random
import threading
from typing import Any, Callable, Dict, NamedTuple, Optional

from jepmon import Failed, Illegal, LongMonitor, Monitor, NotLegal

INVENTED = 10 ** 9  # values from here on nobody writes


class Live(NamedTuple):
    """The result of one run."""

    right: str  # "legal" or "illegal"
    got: str  # a verdict; "dropped" or the name of an exception where some of the run was not judged

    @property
    def is_wrong(self) -> bool:
        return self.got in ("legal", "illegal") and self.got != self.right


class Store:
    """Registers by name, each call of which is atomic; and how many answers were invented and told."""

    def __init__(self, chance: random.Random) -> None:
        self.lock = threading.Lock()
        self.values: Dict[object, int] = {}
        self.fresh = itertools.count(1)
        self.invents = chance.random() < 0.3
        self.invented = 0

    def set(self, name: object, value: int) -> None:
        with self.lock:
            self.values[name] = value

    def get(self, name: object) -> Optional[int]:
        with self.lock:
            return self.values.get(name)


def of_monitor(seed: int) -> Live:
    chance = random.Random(seed)
    store, keys = Store(chance), chance.choice((2, 3, 5))
    expected = (TimeoutError,) if chance.random() < 0.5 else ()
    monitor = Monitor(model="cas-register", unknown="drop", expected=expected)
    work = _client(seed, store, chance.choice((10, 30)), lambda place, name, *parts: getattr(monitor, name)(place, *parts), keys)
    got = _got(monitor, work, chance.choice((1, 2, 3)), lambda: "dropped" if monitor.dropped else "legal")
    return Live("illegal" if store.invented else "legal", got)


def of_long_monitor(seed: int) -> Live:
    chance = random.Random(seed)
    store = Store(chance)
    monitor = LongMonitor(model="cas-register", events=chance.choice((40, 100, 300)), expected=(TimeoutError,))
    handles = [monitor.fresh(changes=chance.choice((None, 5, 20))) for _ in range(2)]
    work = _client(seed, store, 60, lambda place, name, *parts: getattr(handles[place], name)(*parts), len(handles))
    got = _got(monitor, work, chance.choice((1, 2, 3)), lambda: str(monitor.close()).split()[0])
    return Live("illegal" if store.invented else "legal", got)


def _got(monitor: Any, work: Callable[[int], None], threads: int, ended: Callable[[], str]) -> str:
    """The verdict of a run."""
    try:
        with monitor:
            monitor.run(work, threads)
        return ended()
    except Illegal:
        return "illegal"
    except NotLegal as fault:
        return type(fault).__name__


def _client(seed: int, store: Store, turns: int, begin: Callable[..., Any], objects: int) -> Callable[[int], None]:
    def client(number: int) -> None:
        chance = random.Random(f"{seed} {number}")
        for turn in range(turns):
            place, draw = chance.randrange(objects), chance.random()
            try:
                if draw < 0.45:
                    _write(chance, store, begin, place, (place + 1) % objects)
                elif draw < 0.6:
                    with begin(place, "cas", chance.randrange(1, 20), next(store.fresh)) as op:
                        op.fail()
                else:
                    _read(chance, store, begin, place, store.invents and number == 0 and turn > turns // 2)
            except TimeoutError:
                pass
    return client


def _write(chance: random.Random, store: Store, begin: Callable[..., Any], place: int, other: int) -> None:
    value, draw = next(store.fresh), chance.random()
    with begin(place, "write", value) as op:
        if draw < 0.04:
            raise TimeoutError  # before it took place
        if draw < 0.08:
            raise Failed
        store.set(_name(op), value)
        if draw < 0.14:
            raise TimeoutError  # after it took place
        if draw < 0.18:
            with begin(other, "read") as inner:
                inner.value = store.get(_name(inner))
        elif draw < 0.22:
            op.info()


def _read(chance: random.Random, store: Store, begin: Callable[..., Any], place: int, invents: bool) -> None:
    with begin(place, "read") as op:
        found = store.get(_name(op))
        invents = invents and getattr(op, "told", True)
        op.value = INVENTED + next(store.fresh) if invents else found
        if chance.random() < 0.05:
            raise TimeoutError
        store.invented += invents


def _name(op: Any) -> object:
    """The name by which the store knows the object: LongMonitor gives one, Monitor has a key."""
    return getattr(op, "name", None) or op.key
