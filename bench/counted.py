#!/usr/bin/env python3
"""Counts the instructions of the program by valgrind's callgrind, which do not depend on other work of the machine: `counted.py beside` or
`counted.py orders`. `--share PART` takes a part of the events, to try the script.

beside: of `check` and of `script`, one worker, on histories of each kind. With `--plain COMMAND` also of another checker that computes
the same, and with `--without-ends COMMAND` of one that counts no ends and has no budget. A COMMAND is called with the words
`FILE --model KIND --all`, the first one with `--budget N` too; it must print the verdict as its last line. For a reply to each line the
first is called with `-` for FILE and with `--live`. Where what is printed differs the row says so.

orders: of `confirm` of an order that is one, and of `check` of the same history; beside these processor time and peak memory.
"""
import argparse
import pathlib
import random
import re
import shlex
import shutil
import subprocess
import sys
import tempfile
from typing import Iterator, List, NamedTuple, Optional, Tuple

sys.path.insert(0, str(pathlib.Path(__file__).resolve().parent))
from loads import part, whole
from program import PROGRAM
from workload import lines, part_of_one


class Fault(Exception):
    """The user's mistake, in a sentence."""


class History(NamedTuple):
    name: str
    model: str
    clients: int
    budget: int
    events: int
    keys: int = 1
    values: int = 0  # of bursts: so many different ones, else none
    writes: float = 0.5
    load: str = ""  # the kind of workload, where it is not the model


BESIDE = [
    History("register, 2", "register", 2, 4096, 20_000),
    History("register, 5", "register", 5, 4096, 20_000),
    History("register, 6", "register", 6, 65_536, 20_000),
    History("cas-register, 5", "cas-register", 5, 4096, 20_000),
    History("mutex, 20", "mutex", 20, 4096, 20_000),
    History("fifo-queue, 3", "fifo-queue", 3, 65_536, 20_000),
    History("unordered-queue, 3", "unordered-queue", 3, 4096, 20_000),
    History("set of thousands in turn, 5", "set", 5, 4096, 6_000, load="set-in-turn"),
    History("set of thousands at random, 5", "set", 5, 4096, 6_000, load="large-set"),
    History("bursts of a register, 7, five values", "register", 7, 65_536, 1_400, values=5),
    History("bursts of a register, 7, nine in ten reads, 200 values", "register", 7, 65_536, 1_400, values=200, writes=0.1),
    History("bursts of a cas-register, 7, five values", "cas-register", 7, 65_536, 1_400, values=5),
    History("register, 2, 1,000 keys", "register", 2, 4096, 100_000, keys=1_000),
    History("register, 2, 65,536 keys", "register", 2, 4096, 100_000, keys=65_536),
]

ORDERS = [
    History("register, 2, 1", "register", 2, 4096, 1 << 18),
    History("register, 2, 4,000", "register", 2, 4096, 65_536, keys=4_000),
    History("register, 20, 1", "register", 20, 4096, 65_536),
    History("mutex, 3, 1", "mutex", 3, 4096, 65_536),
    History("fifo-queue, 3, 1", "fifo-queue", 3, 65_536, 65_536),
    History("unordered-queue, 3, 1", "unordered-queue", 3, 4096, 65_536),
    History("set of thousands at random, 3, 1", "set", 3, 4096, 4_000, load="large-set"),
]


def bursts(history: History, events: int, seed: int) -> Iterator[str]:
    """All clients begin, then all operations take place, then all return, each time in other orders."""
    draw, held = random.Random(seed), "nil"
    for _ in range(max(1, events // (2 * history.clients))):
        parts, found = {}, {}
        order = list(range(history.clients))
        draw.shuffle(order)
        for client in order:
            new = str(draw.randrange(history.values))
            kind = draw.random() / history.writes
            if kind >= 1:
                parts[client] = "read", "nil"
            elif history.model == "cas-register" and kind < 0.5:
                parts[client] = "cas", f"[{draw.randrange(history.values)} {new}]"
            else:
                parts[client] = "write", new
            yield told("invoke", client, *parts[client])
        draw.shuffle(order)
        for client in order:
            name, text = parts[client]
            if name == "read":
                found[client] = "ok", held
            elif name == "write":
                found[client], held = ("ok", text), text
            else:
                old, new = text.strip("[]").split()
                found[client], held = (("ok", text), new) if held == old else (("fail", text), held)
        draw.shuffle(order)
        for client in order:
            yield told(found[client][0], client, parts[client][0], found[client][1])


def told(kind: str, process: int, name: str, text: str) -> str:
    return f"{{:type :{kind}, :process {process}, :f :{name}, :value [7 {text}]}}"


def write(file: pathlib.Path, history: History, events: int, order: Optional[List[int]] = None) -> None:
    every = bursts(history, events, 1) if history.values else lines(
        events, history.clients, 1, history.load or history.model, keys=history.keys, order=order)
    with file.open("w", encoding="ascii") as out:
        out.writelines(line + "\n" for line in every)


def instructions(command: List[str], given: str = "/dev/null") -> Tuple[float, str]:
    """Millions of instructions of a run, and the last line that it printed."""
    with open(given, "rb") as text:
        ran = subprocess.run(["valgrind", "--tool=callgrind", "--callgrind-out-file=/dev/null", *command],
                             stdin=text, stdout=subprocess.PIPE, stderr=subprocess.PIPE)
    found = re.search(rb"Collected : (\d+)", ran.stderr)
    if found is None:
        said = ran.stderr.decode(errors="replace").strip().splitlines()
        raise Fault(f"valgrind has counted nothing of {shlex.join(command)}: {said[-1] if said else 'it said nothing'}")
    printed = ran.stdout.decode(errors="replace").splitlines()
    return int(found[1]) / 1e6, printed[-1] if printed else ""


def ours(command: str, history: History) -> List[str]:
    budget = [] if command == "confirm" else ["--budget", str(history.budget)]
    workers = ["--workers", "1"] if command == "check" else []
    return [str(PROGRAM), command, "--model", history.model, "--concurrency", str(history.clients), *budget, *workers]


def ratio(one: float, other: Optional[float]) -> str:
    return f"{one / other:.2f}" if other else ""


def number(count: Optional[float]) -> str:
    return f"{count:,.0f}" if count is not None else ""


def beside(file: pathlib.Path, share: float, plain: List[str], without: List[str]) -> None:
    print("| Kind, clients | Budget | Events | plain | `check` | ratio | plain, live | `script` | ratio | without ends | `check` / without ends |")
    print("|---|---|---|---|---|---|---|---|---|---|---|")
    for history in BESIDE:
        events = part(history.events, share)
        write(file, history, events)
        words = ["--model", history.model, "--all"]
        counted, budget = ["--budget", str(history.budget)], f"{history.budget:,}"
        runs = [(plain and [*plain, str(file), *words, *counted], "/dev/null"), ([*ours("check", history), str(file)], "/dev/null"),
                (plain and [*plain, "-", *words, *counted, "--live"], str(file)), (ours("script", history), str(file)),
                (without and [*without, str(file), *words], "/dev/null")]
        # The other checkers have no queues without an order.
        every = [instructions(run, given) if run and (run[0] == str(PROGRAM) or history.model != "unordered-queue") else (None, None)
                 for run, given in runs]
        (first, _), (check, _), (live, _), (script, _), (fewer, _) = every
        assert check is not None and script is not None
        said = {verdict for _, verdict in every if verdict is not None}
        odd = f" (they differ: {', '.join(sorted(said))})" if len(said) > 1 else ""
        print(f"| {history.name}{odd} | {budget} | {events:,} | {number(first)} | {number(check)} | {ratio(check, first)} | {number(live)} "
              f"| {number(script)} | {ratio(script, live)} | {number(fewer)} | {ratio(check, fewer)} |", flush=True)


def orders(file: pathlib.Path, share: float) -> None:
    print("| Kind, clients, keys | Events | `confirm` | an event | `check` | ratio | `confirm`, time | Peak memory |")
    print("|---|---|---|---|---|---|---|---|")
    listed = file.with_suffix(".order")
    for history in ORDERS:
        events = part(history.events, share)
        order: List[int] = []
        write(file, history, events, order)
        listed.write_text("".join(f"{index}\n" for index in order), encoding="ascii")
        confirm = [*ours("confirm", history), str(file), str(listed)]
        spent, said = instructions(confirm)
        check, verdict = instructions([*ours("check", history), str(file)])
        seconds, peak, _ = whole(confirm, "/dev/null")
        odd = "" if said == "linearizable" else f" ({said})"
        counts = f"{number(check)} | {ratio(spent, check)}" if verdict == "legal" else f"`{verdict}` | "
        print(f"| {history.name}{odd} | {events:,} | {number(spent)} | {spent * 1e6 / events:,.0f} | {counts} | {seconds:.2f} s "
              f"| {peak:.0f} MiB |", flush=True)


def main() -> int:
    parser = argparse.ArgumentParser(description=__doc__, formatter_class=argparse.RawDescriptionHelpFormatter)
    parser.add_argument("table", choices=["beside", "orders"])
    parser.add_argument("--share", metavar="PART", type=part_of_one, default=1.0)
    parser.add_argument("--plain", metavar="COMMAND", type=shlex.split, default=[])
    parser.add_argument("--without-ends", metavar="COMMAND", type=shlex.split, default=[])
    given = parser.parse_args()
    try:
        if shutil.which("valgrind") is None:
            raise Fault("valgrind is not installed, which counts the instructions")
        for command in ([str(PROGRAM)], given.plain, given.without_ends):
            if command and shutil.which(command[0]) is None:
                raise Fault(f"{command[0]} is no program that can be run")
        with tempfile.TemporaryDirectory() as room:
            file = pathlib.Path(room, "history.edn")
            if given.table == "beside":
                beside(file, given.share, given.plain, given.without_ends)
            else:
                orders(file, given.share)
    except Fault as fault:
        print(f"counted.py: {fault}", file=sys.stderr)
        return 2
    except KeyboardInterrupt:
        return 130
    return 0


if __name__ == "__main__":
    sys.exit(main())
