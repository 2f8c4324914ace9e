#!/usr/bin/env python3
"""Compares the wide kinds of the program with the plain ones on random scripts, reply by reply. Each script is judged by the plain kind, by the
wide one, and by both in turn (`[:model k kind]`).

If both kinds decide, their replies must be the same. A key that changes its kind must get the reply of its new kind. A wide set and a wide
unordered queue must never be unknown. With a small budget each reply of a wide register must follow the definition of lean ends. Each reply
of a wide cas-register must follow the definition of fronts. Each reply of a wide fifo queue must follow its definition: unknown from the
first ok on before which two enqueues of one value have not failed. A history of a right store must never be illegal, also if it has many
clients and the plain kind does not decide it. JEPMON names the program.
"""
import argparse
import collections
import pathlib
import random
import subprocess
import sys
from typing import Dict, Iterator, List, NamedTuple, Optional, Tuple, Union

TOP = pathlib.Path(__file__).resolve().parents[1]
sys.path[:0] = [str(TOP), str(TOP / "python"), str(TOP / "tests")]

from program import PROGRAM  # noqa: E402
from jepmon import history  # noqa: E402
from jepmon.history.kinds import WIDE  # noqa: E402
from jepmon.objects.configurations import GaveUp  # noqa: E402
from jepmon.program import wide_kinds  # noqa: E402
from tests.python.cas_fronts import CasRegister  # noqa: E402
from tests.python.equal_values import Queue  # noqa: E402
from tests.python.kind_scripts import Clients, Event, Line, Way, drawn_way, texts  # noqa: E402
from tests.python.lean_ends import Register  # noqa: E402

TOGETHER = 25  # scripts that one program judges, with a rewind to nothing between two
DECIDED = ("set", "unordered-queue")  # of which nothing is counted
SMALL, BUDGETS = 40, (1, 2, 3, 7, 40, 300, 4096, 4096, 65536, 65536)
OF_MANY = {"cas-register": 300}  # the budget for many clients, 4096 for other models: 4096 fronts of sixteen clients take minutes
Counts = Dict[str, int]


class Batch(NamedTuple):
    """Scripts of one kind, clients and budget; whether their stores were right."""

    model: str
    clients: int
    budget: int
    scripts: List[List[Line]]
    is_right: List[bool]
    kinds: List[List[bool]]  # for each line of the mixed script, whether the kind is the wide one when it comes


def drawn(model: str, seed: int) -> Batch:
    chance = random.Random(f"{model} {seed}")
    is_wide = chance.random() < 0.15
    clients = chance.choice((8, 12, 16)) if is_wide else chance.choice((2, 3, 4, 5, 6))
    ways = [drawn_way(chance, clients) for _ in range(TOGETHER)]
    if is_wide:
        ways = [way._replace(events=120, keys=1, wrong=0, fail=0, slow=0, crash=min(way.crash, 0.05)) for way in ways]
        ways = [way._replace(values=1000) for way in ways] if model == "fifo-queue" else ways
    scripts = [list(Clients(chance, way, model).lines()) for way in ways]
    kinds = [changes(chance, len(script), way) for script, way in zip(scripts, ways)]
    budget = OF_MANY.get(model, 4096) if is_wide else chance.choice(BUDGETS)
    return Batch(model, clients, budget, scripts, [is_wide or not way.wrong for way in ways], kinds)


def changes(chance: random.Random, lines: int, way: Way) -> List[bool]:
    is_wide, often = False, chance.choice((0.02, 0.1))
    kinds = []
    for _ in range(lines):
        is_wide ^= chance.random() < often
        kinds.append(is_wide)
    return kinds


def replies(batch: Batch, model: str, lines: List[str]) -> List[str]:
    words = [str(PROGRAM), "script", "--concurrency", str(batch.clients), "--model", model, "--budget", str(batch.budget)]
    ran = subprocess.run(words, input="\n".join(lines).encode() + b"\n", stdout=subprocess.PIPE, stderr=subprocess.DEVNULL, timeout=600)
    told = ran.stdout.decode().splitlines()
    if len(told) != len(lines) or any(reply.startswith("refused") for reply in told):
        raise SystemExit(f"{' '.join(words)}: {len(told)} replies to {len(lines)} lines, or some are refused")
    return told


def by_script(batch: Batch, told: List[str]) -> Iterator[List[str]]:
    """The replies to each script; the one to the rewind before it is left out."""
    at = 0
    for script in batch.scripts:
        yield told[at + 1:at + 1 + len(script)]
        at += 1 + len(script)


def judged(batch: Batch, model: str) -> List[List[str]]:
    return list(by_script(batch, replies(batch, model, [line for script in batch.scripts for line in ["[:rewind 0]", *texts(script)]])))


def mixed(batch: Batch) -> List[List[Tuple[str, bool]]]:
    """The replies of both kinds in turn to each script, each with whether the kind is the wide one then."""
    lines: List[str] = []
    wanted: List[Optional[bool]] = []
    for script, kinds in zip(batch.scripts, batch.kinds):
        keys = {line.key for line in script if isinstance(line, Event)}
        was = False
        for line, is_wide in zip(["[:rewind 0]", *texts(script)], [False, *kinds]):
            turns = [f"[:model {key} :{'wide-' if is_wide else ''}{batch.model}]" for key in sorted(keys)] if is_wide != was else []
            lines += [*turns, line]
            wanted += [None] * len(turns) + [is_wide]
            was = is_wide
        lines += [f"[:model {key} :{batch.model}]" for key in sorted(keys)]
        wanted += [None] * len(keys)
    told = [(reply, is_wide) for reply, is_wide in zip(replies(batch, batch.model, lines), wanted) if is_wide is not None]
    kinds_of = iter(told)
    return [[next(kinds_of) for _ in range(1 + len(script))][1:] for script in batch.scripts]


Defined = Union[Register, CasRegister, Queue]


def is_defined(batch: Batch) -> bool:
    """Whether a definition gives the replies of the wide kind in little time."""
    return batch.clients <= 6 if batch.model == "fifo-queue" else batch.model not in DECIDED and batch.budget <= SMALL


def defined(script: List[Line], batch: Batch) -> Iterator[str]:
    """The replies that the definition gives, up to the first one for which there are too many ends."""
    events: List[Event] = []
    keys: Dict[int, Defined] = {}
    for line in script:
        again = [line]
        if isinstance(line, int):
            events, again, keys = events[:line], list(events[:line]), {}
            del events[:]
        try:
            for event in again:
                assert isinstance(event, Event)
                take(keys.setdefault(event.key, of_model(batch)), len(events), event)
                events.append(event)
        except GaveUp:
            return
        yield joined({key: one.status for key, one in keys.items()})


def of_model(batch: Batch) -> Defined:
    return Queue() if batch.model == "fifo-queue" else Register(batch.budget) if batch.model == "register" else CasRegister(batch.budget)


def take(one: Defined, index: int, event: Event) -> None:
    value = event.value if isinstance(event.value, int) else None
    if isinstance(one, Queue):
        one.take(history.Event(index, event.kind, event.process, event.name, event.key, value, 0, "", {}))
    elif event.kind == "invoke":
        part = event.value if isinstance(event.value, tuple) else value
        one.invoke(event.op, event.name, part)  # type: ignore[arg-type]  # a register has no cas
    else:
        one.complete(index, event.op, event.kind, value)


def joined(statuses: Dict[int, str]) -> str:
    for word, verdict in (("dead", "illegal"), ("over", "unknown")):
        found = [(int(status.split()[1]), key) for key, status in statuses.items() if status.startswith(word)]
        if found:
            return f"{verdict} key {min(found)[1]} index {min(found)[0]}"
    return "legal"


def since(over: Optional[int], line: Line, reply: str) -> Optional[int]:
    """The index at which a key was first unknown, if no rewind has removed it."""
    if over is not None and isinstance(line, int) and line <= over:
        over = None
    return int(reply.split()[-1]) if over is None and reply.startswith("unknown") else over


def compare(batch: Batch, number: int, told: Tuple[List[str], List[str], List[Tuple[str, bool]]], seen: Counts) -> Optional[str]:
    """The first fault of one script, if there is one."""
    script = batch.scripts[number]
    plain_over = wide_over = None
    wanted = list(defined(script, batch)) if is_defined(batch) else []
    wanted += told[1][len(wanted):]
    seen[f"{batch.model}: by the definition"] += is_defined(batch)
    for at, (line, plain, wide, (both, is_wide), want) in enumerate(zip(script, *told, wanted)):
        plain_over, wide_over = since(plain_over, line, plain), since(wide_over, line, wide)
        which = ("both" if wide_over is None else "plain") if plain_over is None else "wide" if wide_over is None else "neither"
        seen[f"{batch.model}: {which}"] += 1
        seen[f"{batch.model}: {which}, {wide.split()[0]}"] += 1
        if which == "both" and plain != wide:
            return f"line {at + 1}: the plain kind says {plain}, the wide one {wide}"
        if both != (wide if is_wide else plain):
            return f"line {at + 1}: {both} after changes of the kind, and {wide if is_wide else plain} without"
        if want != wide:
            return f"line {at + 1}: {want} by the definition, and {wide} by the program"
        if batch.model in DECIDED and wide_over is not None or batch.is_right[number] and wide.startswith("illegal"):
            return f"line {at + 1}: {wide}"
    return None


def tried(model: str, seed: int, seen: Counts) -> int:
    """How many scripts of a batch fail."""
    batch = drawn(model, seed)
    plain, wide, both = judged(batch, model), judged(batch, f"wide-{model}"), mixed(batch)
    wrong = 0
    for number in range(TOGETHER):
        fault = compare(batch, number, (plain[number], wide[number], both[number]), seen)
        seen[f"{model}: scripts"] += 1
        if fault:
            wrong += 1
            print(f"{model}, seed {seed}, script {number}, budget {batch.budget}, {batch.clients} clients: {fault}")
            print("\n".join(f"{line}  {told}" for line, told in zip(texts(batch.scripts[number]), wide[number])), flush=True)
    return wrong


def scripts_of(seen: Counts) -> int:
    return sum(number for what, number in seen.items() if what.endswith(": scripts"))


def main() -> int:
    parser = argparse.ArgumentParser(description=__doc__, formatter_class=argparse.RawDescriptionHelpFormatter)
    parser.add_argument("count", nargs="?", type=int, default=400, help="scripts of each kind")
    parser.add_argument("first", nargs="?", type=int, default=0, help="the first seed")
    given = parser.parse_args()
    count, first = given.count, given.first
    models = [model for model, kind in WIDE.items() if kind in wide_kinds(str(PROGRAM))]
    seen: "collections.Counter[str]" = collections.Counter()
    wrong = 0
    try:
        for seed in range(first, first - -count // TOGETHER):
            for model in models:
                wrong += tried(model, seed, seen)
            if (seed - first + 1) % 100 == 0:
                print(f"{scripts_of(seen)} scripts, {wrong} differ", flush=True)
    except KeyboardInterrupt:
        print("interrupted")
    for what, number in sorted(seen.items()):
        print(f"{number:10,} {what}")
    print(f"{scripts_of(seen) - wrong} passed, {wrong} failed")
    return 1 if wrong else 0


if __name__ == "__main__":
    sys.exit(main())
