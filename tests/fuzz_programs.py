#!/usr/bin/env python3
"""Compares two programs on random scripts, byte for byte: events of all kinds, rewinds, changes of models and budgets, and lines that are
refused; some with long queues and large sets. A new program must say the same as the one before it.

usage: tests/fuzz_programs.py OTHER COUNT [FIRST]     OTHER is the program before, JEPMON names the new one
"""
import collections
import pathlib
import random
import subprocess
import sys
from typing import Any, Dict, Iterator, List, NamedTuple, Tuple

TOP = pathlib.Path(__file__).resolve().parents[1]
sys.path[:0] = [str(TOP), str(TOP / "python"), str(TOP / "tests")]

from jepmon.history.line import event_line, part_text  # noqa: E402
from program import PROGRAM  # noqa: E402
from tests.python.shard_histories import OPERATIONS, Store  # noqa: E402

MODELS = list(OPERATIONS)
BUDGETS = (1, 2, 7, 40, 300, 5_000, 65_536)
ODD = ("[:verdict]", "[:rewind -1]", "[:budget 0 0]", "[:model 0 list]", "; nothing", "{:type :invoke}", "[", "[:verdict] [:verdict]",
       "{:type :info, :process :nemesis, :f :heal, :value nil}", "{:type :ok, :process 9, :f :read, :value [0 nil]}")


class Moment(NamedTuple):
    """The state after some events: the clients' processes, their open operations, and the objects."""

    processes: Tuple[int, ...]
    running: Dict[int, Tuple[str, int, Any]]
    states: Dict[int, Any]


class Script:
    """Writes a script by a store that errs now and then."""

    def __init__(self, seed: int) -> None:
        self.chance = chance = random.Random(seed)
        self.model = MODELS[seed % len(MODELS)]
        self.threads = chance.choice((1, 2, 2, 3, 3, 4, 5, 6, 8))
        self.keys = list(range(chance.choice((1, 1, 2, 5))))
        self.values = chance.choice((2, 3, 20, 1_000, 1 << 40))
        self.errors, self.crashes = chance.choice((0, 0, 0.002, 0.05)), chance.choice((0, 0, 0.01, 0.1))
        self.commands = chance.choice((0, 0.01, 0.1))
        self.store = Store(self.model, chance)
        self.moments = [Moment(tuple(range(self.threads)), {}, {})]

    def words(self) -> List[str]:
        return ["script", "--concurrency", str(self.threads), "--model", self.model, "--budget", str(self.chance.choice(BUDGETS))]

    def event(self, kind: str, process: int, name: str, key: int, part: Any, moment: Moment) -> str:
        self.moments.append(moment)
        return event_line(kind, process, name, key, part_text(part))

    def invoke(self, thread: int, name: str, key: int) -> str:
        now, value = self.moments[-1], self.chance.randrange(self.values)
        part = (self.chance.randrange(self.values), value) if name == "cas" else value if name in ("write", "add", "enqueue") else None
        return self.event("invoke", now.processes[thread], name, key, part, now._replace(running={**now.running, thread: (name, key, part)}))

    def complete(self, thread: int) -> str:
        now = self.moments[-1]
        name, key, part = now.running[thread]
        self.store.states = dict(now.states)
        took, answer = self.store.does(name, key, part) if self.chance.random() < 0.99 else (True, part)
        kind = "info" if self.chance.random() < self.crashes else "ok" if took else "fail"
        if kind == "ok" and self.chance.random() < self.errors and name in ("read", "dequeue"):
            answer = frozenset([1]) if self.model == "set" else self.chance.randrange(self.values)
        if kind == "ok" and name == "dequeue" and answer is None:
            kind = "fail"
        process = now.processes[thread]
        processes = now.processes[:thread] + (process + self.threads * (kind == "info"),) + now.processes[thread + 1:]
        running = {other: what for other, what in now.running.items() if other != thread}
        return self.event(kind, process, name, key, answer if kind == "ok" else part, Moment(processes, running, dict(self.store.states)))

    def command(self) -> str:
        drawn, key = self.chance.random(), self.chance.choice(self.keys)
        if drawn < 0.4:
            count = self.chance.randrange(len(self.moments))
            del self.moments[count + 1:]
            return f"[:rewind {count}]"
        if drawn < 0.6:
            return f"[:budget {key} {self.chance.choice(BUDGETS)}]"
        return f"[:model {key} :{self.chance.choice(MODELS)}]" if drawn < 0.65 else self.chance.choice(ODD)

    def filled(self, count: int) -> Iterator[str]:
        """So many of the kind's first operation, one after the other."""
        for _ in range(count):
            yield self.invoke(0, OPERATIONS[self.model][0], self.keys[0])
            if 0 in self.moments[-1].running:
                yield self.complete(0)

    def lines(self) -> Iterator[str]:
        yield from self.filled(self.chance.choice((0, 0, 0, 20, 300)))
        for _ in range(self.chance.choice((5, 30, 150, 600))):
            thread = self.chance.randrange(self.threads)
            if self.chance.random() < self.commands:
                yield self.command()
            elif thread in self.moments[-1].running:
                yield self.complete(thread)
            else:
                yield self.invoke(thread, self.chance.choice(OPERATIONS[self.model]), self.chance.choice(self.keys))


def replies(program: str, words: List[str], text: bytes) -> Tuple[bytes, bytes, int]:
    ran = subprocess.run([program, *words], input=text, stdout=subprocess.PIPE, stderr=subprocess.PIPE, timeout=300)
    return ran.stdout, ran.stderr, ran.returncode


def main() -> int:
    other, count, first = sys.argv[1], int(sys.argv[2]), int(sys.argv[3]) if len(sys.argv) > 3 else 0
    seen: "collections.Counter[str]" = collections.Counter()
    wrong = lines = 0
    for seed in range(first, first + count):
        script = Script(seed)
        words, text = script.words(), "\n".join(script.lines()).encode() + b"\n"
        before, now = replies(other, words, text), replies(str(PROGRAM), words, text)
        lines += text.count(b"\n")
        told = now[0].decode().splitlines()
        seen[f"{script.model} {told[-1].split()[0] if told else 'nothing'}"] += 1
        if before != now:
            wrong += 1
            at = next((n for n, pair in enumerate(zip(before[0].splitlines(), now[0].splitlines())) if pair[0] != pair[1]), -1)
            print(f"seed {seed}: the replies differ from the {at + 1}. on, or else in the status: {before[2]} and {now[2]}", flush=True)
    print(", ".join(f"{what} {number}" for what, number in sorted(seen.items())))
    print(f"{lines:,} lines")
    print(f"{count - wrong} passed, {wrong} failed")
    return min(wrong, 1)


if __name__ == "__main__":
    sys.exit(main())
