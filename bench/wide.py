#!/usr/bin/env python3
"""How many keys with many clients are decided, and how fast: `wide.py KEYS OPERATIONS [DIR]`; JEPMON names the program.

It makes keys for each kind, number of clients, unique and repeated values, without and with timeouts. Each is a history of clients that are
always busy; one in four has a wrong answer near its end. A row has the number of keys that `jepmon check` decides at the greatest budget,
the number that jepmon.wide decides in ten processor seconds a key, and the seconds of the slowest. The histories are left in DIR, where one
is named.
"""
import collections
import heapq
import os
import pathlib
import random
import sys
import time
from typing import Any, Dict, Iterator, List, NamedTuple, Optional, Tuple

sys.path.insert(0, str(pathlib.Path(__file__).resolve().parent.parent / "python"))

from jepmon.history import Event, operations, read_history  # noqa: E402
from jepmon.objects import START, rule  # noqa: E402
from jepmon.program import Options, check  # noqa: E402
from jepmon.history.line import event_line, part_text  # noqa: E402
from jepmon.wide import Clock, decide  # noqa: E402

SECONDS = 10.0  # of the processor, for each key
NAMES = {
    "register": ("read", "write"), "cas-register": ("read", "write", "cas"), "mutex": ("acquire", "release"),
    "fifo-queue": ("enqueue", "dequeue"), "unordered-queue": ("enqueue", "dequeue"), "set": ("add", "add", "add", "read"),
}
CLIENTS = (5, 10, 20, 50)
VALUES = 5  # where they are repeated
TIMEOUTS = 0.02


class Row(NamedTuple):
    model: str
    clients: int
    is_unique: bool
    timeouts: float

    @property
    def name(self) -> str:
        return f"{self.model}-{self.clients}-{'unique' if self.is_unique else 'repeated'}-{self.timeouts:g}"


class Op:
    """An operation: when it is invoked, takes place and returns, and how."""

    def __init__(self, name: str, times: Tuple[float, float, float], value: int) -> None:
        self.name, self.value = name, value
        self.invoked, self.placed, self.returned = times
        self.part: Any = None
        self.kind, self.answer = "ok", None  # type: str, Any


def rows() -> Iterator[Row]:
    for model in NAMES:
        for is_unique in (True, False) if model != "mutex" else (True,):
            for clients in CLIENTS:
                for timeouts in (0.0, TIMEOUTS):
                    yield Row(model, clients, is_unique, timeouts)


def history_of(row: Row, count: int, seed: int) -> str:
    """A history of one key, with this number of operations."""
    chance = random.Random(f"{row.name} {seed}")
    ops = drawn(row, count, chance)
    take_place(row, ops, chance)
    invoked = [(op.invoked, 0, number) for number, op in enumerate(ops)]
    returned = [(op.returned, 1, number) for number, op in enumerate(ops)]
    told = [(ops[number], "invoke" if which == 0 else ops[number].kind) for _, which, number in sorted(invoked + returned)]
    if seed % 4 == 3:
        go_wrong(told)
    return text_of(told, row.clients)


def drawn(row: Row, count: int, chance: random.Random) -> List[Op]:
    """Operations of clients that are always busy: each takes from a half to 45 units of time, and takes place at a moment within."""
    free = [10 * chance.random() for _ in range(row.clients)]
    heapq.heapify(free)
    ops = []
    for number in range(count):
        begin = heapq.heappop(free)
        end = begin + chance.choice((1, 3, 5, 10, 30)) * (0.5 + chance.random())
        at = begin + chance.random() * (end - begin)
        ops.append(Op(chance.choice(NAMES[row.model]), (begin, at, end), number + 1 if row.is_unique else chance.randrange(VALUES)))
        heapq.heappush(free, end + chance.random())
    return ops


def take_place(row: Row, ops: List[Op], chance: random.Random) -> None:
    state = START[row.model]
    for op in sorted(ops, key=lambda each: each.placed):
        if op.name in ("write", "add", "enqueue"):
            op.part = op.value
        elif op.name == "cas":
            op.part = (state if state is not None and chance.random() < 0.7 else 0, op.value)
        outcomes = rule(row.model, op.name)(state, op.part)
        if outcomes:
            state, found = chance.choice(outcomes)
            op.answer = found if op.name in ("read", "dequeue") else op.part
        else:
            op.kind = "fail"
        if chance.random() < row.timeouts:
            op.kind = "info"


def go_wrong(told: List[Tuple[Op, str]]) -> None:
    """A late read or dequeue has the answer of an early one."""
    answers = [op for op, kind in told if kind == "ok" and op.name in ("read", "dequeue") and op.answer is not None]
    if len(answers) > 20:
        answers[-3].answer = answers[2].answer


def text_of(told: List[Tuple[Op, str]], clients: int) -> str:
    process, free = list(range(clients)), list(range(clients))
    thread: Dict[int, int] = {}
    lines = []
    for op, kind in told:
        if kind == "invoke":
            thread[id(op)] = heapq.heappop(free)
        of = thread[id(op)]
        part = op.answer if kind == "ok" else op.part
        lines.append(event_line(kind, process[of], op.name, 0, part_text(part)) + "\n")
        if kind != "invoke":
            process[of] += clients if kind == "info" else 0
            heapq.heappush(free, of)
    return "".join(lines)


def judged(row: Row, text: str) -> Tuple[str, str, float]:
    """The status by check, the status by the search, and the seconds."""
    options = Options(row.clients, row.model, 65536)
    said = check(text.encode(), options).keys[0].status
    events: List[Event] = read_history(text)
    began = sum(os.times()[:4])
    found = decide(operations(events, row.clients), options, Clock(SECONDS, time.process_time))
    seconds = sum(os.times()[:4]) - began
    return said, "unknown" if found is None or seconds > SECONDS else "alive" if found.index is None else "dead", seconds


def main() -> None:
    keys, count = int(sys.argv[1]), int(sys.argv[2])
    folder: Optional[pathlib.Path] = pathlib.Path(sys.argv[3]) if len(sys.argv) > 3 else None
    for row in rows():
        texts = [history_of(row, count, seed) for seed in range(keys)]
        for seed, text in enumerate(texts if folder is not None else []):
            assert folder is not None
            folder.mkdir(parents=True, exist_ok=True)
            (folder / f"{row.name}-{seed}.edn").write_text(text)
        results = [judged(row, text) for text in texts]
        decided = collections.Counter(found for _, found, _ in results)
        by_check = sum(said != "over" for said, _, _ in results)
        print(f"{row.name:34} check {by_check:3} of {keys}, wide {keys - decided['unknown']:3} of {keys} ({decided['dead']} dead), "
              f"slowest {max(seconds for _, _, seconds in results):.2f} s", flush=True)


if __name__ == "__main__":
    main()
