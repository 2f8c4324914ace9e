"""The right verdict: that of the proved program for a history in its own form, with the largest budget. No translator takes part."""
from __future__ import annotations

import random
from typing import Callable, Dict, Iterator, List, Optional, Sequence, Tuple

from jepmon.history.kinds import BUDGETS
from jepmon.program import Options
from tests.python.fuzz import lines_of
from tests.python.shard_histories import Told, plain

from .histories import Op, changed

THREADS = 16  # of a file: more than a history here has operations
TRIES = 6  # changed histories among which one is illegal, or none is taken
WORDS = {"alive": "legal", "dead": "illegal"}
Point = Tuple[int, int, int]  # a time, the place of an operation, and 0 for its call or 1 for its return


def points(ops: Sequence[Op]) -> List[Point]:
    """The calls and returns in the order of time."""
    return sorted([(op.call, place, 0) for place, op in enumerate(ops)]
                  + [(op.end, place, 1) for place, op in enumerate(ops) if op.end is not None])


def verdict(model: str, ops: Sequence[Op]) -> str:
    return verdicts(model, [ops])[0]


def verdicts(model: str, histories: Sequence[Sequence[Op]]) -> List[str]:
    """`legal`, `illegal` or `unknown` for each history. The program is asked once: each key of each history is a key of one file."""
    keys: Dict[Tuple[int, int], int] = {}
    for place, ops in enumerate(histories):
        for op in ops:
            keys.setdefault((place, op.key), len(keys))
    processes = list(range(THREADS))
    lines = [plain(event) for place, ops in enumerate(histories) for event in _events(ops, place, keys, processes)]
    told = lines_of("".join(line + "\n" for line in lines).encode(), Options(THREADS, model, BUDGETS[-1]))
    found: List[List[str]] = [[] for _ in histories]
    for (place, _), key in keys.items():
        found[place].append(WORDS.get(told[key].status, "unknown"))
    return [max(words, key=("legal", "unknown", "illegal").index, default="legal") for words in found]


def widened(ops: Sequence[Op], error: int, clock: Callable[[int, int], int]) -> List[Op]:
    """The operations as they may have been, if the clock of each client may be wrong by so much: by these times, no more is known. A call
    and a return of one time may have been in either order."""
    return [op._replace(call=2 * (clock(op.call, op.client) - error),
                        end=None if op.end is None else 2 * (clock(op.end, op.client) + error) + 1) for op in ops]


def _events(ops: Sequence[Op], place: int, keys: Dict[Tuple[int, int], int], processes: List[int]) -> Iterator[Told]:
    """The events of one history, each operation on a thread that is free. An operation that never returned ends by an info at the end."""
    free, threads = list(range(THREADS)), {}
    still = [(0, number, 1) for number, op in enumerate(ops) if op.end is None]
    for _, number, side in points(ops) + still:
        op = ops[number]
        key = keys[place, op.key]
        if side == 0:
            threads[number] = free.pop(0)
            yield Told("invoke", processes[threads[number]], op.name, key, op.part)
            continue
        thread = threads[number]
        is_answer = op.outcome == "ok" and op.name in ("read", "dequeue")
        yield Told(op.outcome, processes[thread], op.name, key, op.answer if is_answer else op.part)
        processes[thread] += THREADS if op.outcome == "info" else 0
        free.append(thread)


def made_illegal(chance: random.Random, model: str, histories: Sequence[List[Op]]) -> List[Optional[List[Op]]]:
    """For each history the same with one changed answer that makes it illegal; None if none was found."""
    tries: List[Tuple[int, List[Op]]] = []
    for place, ops in enumerate(histories):
        tries += [(place, other) for other in (changed(chance, model, ops) for _ in range(TRIES)) if other is not None]
    found: List[Optional[List[Op]]] = [None for _ in histories]
    for (place, ops), word in zip(tries, verdicts(model, [ops for _, ops in tries])):
        if word == "illegal" and found[place] is None:
            found[place] = ops
    return found
