"""Random live tests: clients of every kind of object, with timeouts, failures and some wrong answers, of a Monitor or a LongMonitor."""
from __future__ import annotations

import io
import random
import subprocess
import tempfile
import threading
import time
from typing import Any, Callable, Dict, List, NamedTuple, Optional, Set

from jepmon import Failed, LongMonitor, Monitor, NotLegal
from jepmon.program import Options, find_program

MODELS = ("register", "cas-register", "fifo-queue", "unordered-queue", "set", "mutex")
Begin = Callable[..., Any]  # an operation, of a name, the number of an object, and values


class Case(NamedTuple):
    """The choices for one run."""

    seed: int
    threads: int
    objects: int
    operations: int  # of each thread
    budget: int
    model: str
    wrong: float  # how likely an answer is wrong
    pause: float  # seconds before an operation at most
    events: int  # of a part


def case_of(seed: int) -> Case:
    draws = random.Random(seed)
    return Case(seed, draws.choice((2, 5, 20, 50)), draws.choice((1, 3, 10)), 20, draws.choice((1, 3, 8, 20, 200)), draws.choice(MODELS),
                draws.choice((0.0, 0.0, 0.01, 0.05)), draws.choice((0.0, 0.0, 0.0005)), draws.choice((30, 100, 1000)))


class Objects:
    """All objects of the run, by name, in one dict."""

    def __init__(self, case: Case) -> None:
        self.case = case
        self.lock = threading.Lock()
        self.values: Dict[object, int] = {}
        self.lists: Dict[object, List[int]] = {}
        self.sets: Dict[object, Set[int]] = {}
        self.held: Set[object] = set()

    def is_wrong(self, draws: random.Random) -> bool:
        return draws.random() < self.case.wrong


def name_of(op: Any) -> object:
    """The store's name of the object: LongMonitor gives a name, Monitor has a key."""
    return getattr(op, "name", None) or op.key


def register(begin: Begin, objects: Objects, draws: random.Random, place: int, value: int) -> None:
    if draws.random() < 0.1 and objects.case.model == "cas-register":
        with begin("cas", place, value, value + 1):
            raise Failed
    if draws.random() < 0.5:
        with begin("write", place, value) as op:
            if draws.random() < 0.02:
                raise Failed
            objects.values[name_of(op)] = value
            if draws.random() < 0.03:
                raise TimeoutError
    else:
        with begin("read", place) as op:
            op.value = value if objects.is_wrong(draws) else objects.values.get(name_of(op))


def members(begin: Begin, objects: Objects, draws: random.Random, place: int, value: int) -> None:
    if draws.random() < 0.5:
        with begin("add", place, value % 30) as op, objects.lock:
            objects.sets.setdefault(name_of(op), set()).add(value % 30)
    else:
        with begin("read", place) as op, objects.lock:
            op.value = {value} if objects.is_wrong(draws) else set(objects.sets.get(name_of(op), ()))


def queue(begin: Begin, objects: Objects, draws: random.Random, place: int, value: int) -> None:
    if draws.random() < 0.4:
        with begin("enqueue", place, value) as op, objects.lock:
            objects.lists.setdefault(name_of(op), []).append(value)
    else:
        with begin("dequeue", place) as op, objects.lock:
            held = objects.lists.get(name_of(op))
            op.value = value if objects.is_wrong(draws) else held.pop(0) if held else None


def lock(begin: Begin, objects: Objects, draws: random.Random, place: int, _value: int) -> None:
    with begin("acquire", place) as taken, objects.lock:
        if name_of(taken) in objects.held and not objects.is_wrong(draws):
            raise Failed
        objects.held.add(name_of(taken))
    if taken.outcome == "ok":
        release = taken.object.release() if hasattr(taken, "object") else begin("release", place)
        with release, objects.lock:
            objects.held.discard(name_of(taken))


KINDS = {"register": register, "cas-register": register, "set": members, "mutex": lock, "fifo-queue": queue, "unordered-queue": queue}


def clients(case: Case, begin: Begin) -> Callable[[int], None]:
    """The work of each client."""
    objects = Objects(case)

    def client(number: int) -> None:
        draws = random.Random(1000 * case.seed + number)
        for turn in range(case.operations):
            time.sleep(draws.random() * case.pause)
            KINDS[case.model](begin, objects, draws, draws.randrange(case.objects), number * 100 + turn)

    return client


def run(case: Case, monitor: Monitor) -> None:
    with monitor:
        monitor.run(clients(case, lambda name, place, *values: getattr(monitor, name)(place, *values)), case.threads)


def run_long(case: Case, monitor: LongMonitor) -> None:
    with monitor:
        handles = [monitor.fresh(case.model) for _ in range(case.objects)]
        monitor.run(clients(case, lambda name, place, *values: getattr(handles[place], name)(*values)), case.threads)


# --- The verdict of a run, and of its history when judged again ---


def last_line(words: List[str], text: str = "") -> str:
    return (subprocess.run(words, input=text, stdout=subprocess.PIPE, stderr=subprocess.DEVNULL, universal_newlines=True).stdout
            .splitlines() or ["nothing"])[-1]


def fault_of(case: Case, is_dropped: bool) -> Optional[str]:
    """The differences, if any, for a Monitor."""
    log = io.StringIO()
    with tempfile.TemporaryDirectory() as out:
        monitor = Monitor(model=case.model, budget=case.budget, unknown="drop" if is_dropped else "raise", expected=(TimeoutError,),
                          log=log, out=out)
        try:
            run(case, monitor)
        except NotLegal:
            pass
        verdict, again = monitor.close(), last_line([f"{monitor.folder}/judge-again"])
    told = last_line([find_program(), "script", *Options(64, case.model, case.budget).words()], log.getvalue())
    if again != verdict:
        return f"the run said {verdict}, and its folder says {again}"
    if told != ("legal" if monitor.failure is None else verdict):
        return f"the run said {verdict}, and its log ends with {told}"
    return None


def fault_of_long(case: Case) -> Optional[str]:
    """The same of a LongMonitor, which has no log."""
    with tempfile.TemporaryDirectory() as out:
        monitor = LongMonitor(model=case.model, budget=case.budget, expected=(TimeoutError,), out=out, events=case.events,
                              concurrency=min(64, case.threads))
        try:
            run_long(case, monitor)
        except NotLegal:
            pass
        verdict, again = monitor.close().split("\n")[0], last_line([f"{monitor.folder}/judge-again"])
    return f"the run said {verdict}, and its folder says {again}" if again != verdict else None
