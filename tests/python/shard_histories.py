"""Random histories within the limits of one check, for the tests of jepmon.shards. They are of a store that errs now and then, with crashes
and fails, spelled in many ways, and some with a refused element."""
from __future__ import annotations

import random
from typing import Any, Callable, Dict, List, NamedTuple, Optional, Tuple

from jepmon.history.line import event_line
from jepmon.program import Options
from jepmon.shards.sizes import Sizes

OPERATIONS: Dict[str, Tuple[str, ...]] = {
    "register": ("read", "write"), "cas-register": ("read", "write", "cas"), "mutex": ("acquire", "release"),
    "fifo-queue": ("enqueue", "dequeue"), "unordered-queue": ("enqueue", "dequeue"), "set": ("add", "read"),
}
Part = Any  # None, an integer, a pair, a set


class Told(NamedTuple):
    """An event before it is spelled."""

    kind: str
    process: int
    name: str
    key: int
    part: Part


class Store:
    """Objects of one kind."""

    def __init__(self, model: str, chance: random.Random) -> None:
        self.model, self.chance = model, chance
        self.states: Dict[int, Any] = {}

    def does(self, name: str, key: int, part: Part) -> Tuple[bool, Part]:
        """Whether the operation takes place, and its answer."""
        start: Any = {"mutex": False, "set": frozenset()}.get(self.model, () if "queue" in self.model else None)
        state = self.states.get(key, start)
        if name == "read":
            return True, state
        if name in ("write", "add", "enqueue"):
            self.states[key] = part if name == "write" else state | {part} if name == "add" else state + (part,)
            return True, part
        if name == "cas":
            if state == part[0]:
                self.states[key] = part[1]
            return state == part[0], part
        if name == "dequeue":
            if not state:
                return False, None
            at = 0 if self.model == "fifo-queue" else self.chance.randrange(len(state))
            self.states[key] = state[:at] + state[at + 1:]
            return True, state[at]
        self.states[key] = name == "acquire"
        return state == (name == "release"), None


def events_of(model: str, chance: random.Random, threads: int, count: int, keys: List[int], values: int) -> List[Told]:
    """The events of a store's clients."""
    store, told = Store(model, chance), []
    processes = list(range(threads))
    running: Dict[int, Tuple[str, int, Part]] = {}
    crashes, errors = chance.choice((0, 0.05, 0.2)), chance.choice((0, 0.02, 0.1))
    while len(told) < count:
        thread = chance.randrange(threads)
        if thread not in running:
            name, key, value = chance.choice(OPERATIONS[model]), chance.choice(keys), chance.randrange(values)
            part: Part = (chance.randrange(values), value) if name == "cas" else value if name in ("write", "add", "enqueue") else None
            running[thread] = name, key, part
            told.append(Told("invoke", processes[thread], name, key, part))
            continue
        name, key, part = running.pop(thread)
        took, answer = store.does(name, key, part) if chance.random() < 0.97 else (True, part)
        kind = "info" if chance.random() < crashes else "ok" if took else "fail"
        if kind == "ok" and name in ("read", "dequeue") and model != "set" and chance.random() < errors:
            answer = chance.randrange(values)
        if kind == "ok" and name == "dequeue" and answer is None:
            kind = "fail"
        told.append(Told(kind, processes[thread], name, key, answer if kind == "ok" else part))
        processes[thread] += threads if kind == "info" else 0
    return told


# --- Spelling ---


def spelled(part: Part) -> str:
    if part is None:
        return "nil"
    if isinstance(part, tuple):
        return f"[{part[0]} {part[1]}]"
    return f"#{{{' '.join(map(str, part))}}}" if isinstance(part, frozenset) else str(part)


def plain(event: Told, more: str = "") -> str:
    return event_line(event.kind, event.process, event.name, event.key, spelled(event.part), more)


def other(event: Told, place: int, chance: random.Random) -> str:
    """The event in one of many other spellings."""
    fields = [f":type :{event.kind}", f":process {event.process}", f":f :{event.name}", f":value [{event.key} {spelled(event.part)}]"]
    fields += chance.choice(([], [f":index {place}"], [":error \"a ] } ; b\""], [":time 12", ":node nil"], [f":jepsen-index {place}"]))
    chance.shuffle(fields)
    comma = chance.choice((", ", " ", ",,", "\n ", " ; a comment {\n", " #_ {:type :ok} ", "\t"))
    return "{" + comma.join(fields) + chance.choice(("", " ", "\n")) + "}"


FAULTS = ("{:type :info, :process :nemesis, :f :heal, :value nil}", "{:type :info, :process :nemesis, :f :partition, :value [[0 1] [2]]}",
          "{:type :info, :process :nemesis, :f :crash, :value 3, :jepsen-index 4}")
BETWEEN = ("; a comment [", "", "   ", '#_{:type :info, :process :nemesis, :f :note, :value "kill n1", :time 8123456}', "#_ #_ 1 \"x\"")


def text_of(told: List[Told], chance: random.Random) -> str:
    """The text of a history, in one of several manners."""
    manner = chance.choice(("plain", "plain", "indices", "jepsen", "time", "mixed", "mixed", "one line", "other"))
    lines: List[str] = []
    place = 0
    for event in told:
        if manner in ("mixed", "other") and chance.random() < 0.05:
            lines.append(chance.choice(FAULTS))
            place += 1
        if manner in ("mixed", "other") and chance.random() < 0.05:
            lines.append(chance.choice(BETWEEN))
        if manner == "indices":
            lines.append(plain(event).replace("{", f"{{:index {place}, ", 1))
        elif manner == "jepsen":
            lines.append(plain(event, f", :jepsen-index {3 * place}" + (", :jepsen-process 7" if place % 2 else "")))
        elif manner == "time":
            lines.append(plain(event, f", :time {1000 * place}"))
        elif manner == "other" or manner == "mixed" and chance.random() < 0.1:
            lines.append(other(event, place, chance))
        else:
            lines.append(plain(event))
        place += 1
    ends = " " if manner == "one line" else chance.choice(("\n", "\n", "\n", "\r\n", "\n\n", "\n\t"))
    return ends.join(lines) + chance.choice(("\n", "\n", "", "\n; the end"))


# --- What is refused ---


def insert(lines: List[str], line: str, chance: random.Random) -> List[str]:
    place = chance.randint(0, len(lines))
    return lines[:place] + [line] + lines[place:]


def change(lines: List[str], old: str, new: str, chance: random.Random) -> List[str]:
    """Changes one line that has the text."""
    places = [place for place, line in enumerate(lines) if old in line]
    if not places:
        return lines
    place = chance.choice(places)
    return lines[:place] + [lines[place].replace(old, new, 1)] + lines[place + 1:]


WRONG_LINES = (
    "{:type :ok, :process 0, :f :read, :value [0 nil]}", "{:type :invoke, :process 0, :f :read, :value [0 nil]}",
    "{:type :info, :process 1, :f :write, :value [0 3]}", "{:type :invoke, :process 77, :f :read, :value [0 nil]}",
    "{:type :invoke, :process 4294967296, :f :read, :value [0 nil]}", "{:type :invoke, :process -1, :f :read, :value [0 nil]}",
    "{:type :invoke, :process 0, :f :increment, :value [0 nil]}", "{:type :start, :process 0, :f :read, :value [0 nil]}",
    "{:type :invoke, :process 0, :f :read, :value [-1 nil]}", "{:type :invoke, :process 0, :f :read, :value [0 1 2]}",
    "{:type :invoke, :process 0, :f :read, :value nil}", "{:type :invoke, :process 0, :f :read}", "[1 2]", "7", "nil", "#{1}", "\"x\"",
    "{:index 4294967296, :type :invoke, :process 0, :f :read, :value [0 nil]}", "{:index -1, :type :invoke}", "{:type 1}",
    "{:index 999999, :type :info, :process :nemesis, :f :heal, :value nil}", "{:type :info, :process :nemesis, :f :heal, :value 1}",
    "{:type :invoke, :process :nemesis, :f :heal, :value nil}", "{:type :info, :process :nemesis, :f :crash, :value 7}",
    "{:type :invoke, :process 0, :f :write, :value [0 9223372036854775808]}", "{:type :invoke, :process 0, :f :read, :value [0 0x1]}",
    "{:type :invoke, :process 00, :f :read, :value [0 nil]}", "{:type :invoke, :process 0, :f :write, :value [0 1.5]}", "}", "]", ")",
    "{:type :invoke, :process 0, :f :read, :value [0 nil], :time 1, :time 2}", "{:type :invoke, :type :invoke}", "{:a}", "\"",
    "{:type :invoke, :process 0, :f :write, :value [0 007]}", "{:type :invoke, :process 0, :f :read, :value [0 nil-1]}", "#inst 1",
    "{:type :invoke, :process 0, :f :read, :value [0 #{1 1}]}", "#_", "\\a", "12a", ":", "a", "\xe9", "(1)", "#{2 2}", ":a/b", "'", "\0",
    "{:type :invoke, :process 0, :f :read, :value [0 nil]}}", "[" * 33 + "]" * 33, "{", "[", "#", "\"\\x\"", "1 2 x", "+", "- 1",
    "{:type :invoke, :process 0, :f :add, :value [0 1]}  {:type :ok, :process 0, :f :add, :value [0 2]}",
    "{:type :invoke, :process 0, :f :cas, :value [0 [1 2 3]]}", "{:type :invoke, :process 0, :f :cas, :value [0 [1 -]]}",
)

CHANGES = ((":ok", ":fail"), (":fail", ":ok"), (":invoke", ":ok"), (":ok", ":invoke"), (":ok", ":info"), (":info", ":ok"), (" nil]", " 1]"),
           (":read", ":write"), (":write", ":read"), (":acquire", ":release"), (":enqueue", ":add"), ("[0 ", "[1 "), (":process 0", ":process 1"),
           (":process 1", ":process 0"), (" 1]", " 2]"), ("#{", "#{7 "), (":index 3", ":index 4"), (":value [", ":value [0 "), ("}", "]"), ("]", ""))


def spoiled(text: str, chance: random.Random) -> str:
    """The text with something that is probably refused."""
    lines = text.split("\n")
    for _ in range(chance.choice((1, 1, 1, 2, 3))):
        what = chance.randrange(5)
        if what == 0 and lines:
            del lines[chance.randrange(len(lines))]
        elif what == 1 and len(lines) > 1:
            first, second = chance.randrange(len(lines)), chance.randrange(len(lines))
            lines[first], lines[second] = lines[second], lines[first]
        elif what == 2:
            lines = change(lines, *chance.choice(CHANGES), chance)
        elif what == 3 and lines:
            lines = insert(lines, chance.choice(lines), chance)
        else:
            lines = insert(lines, chance.choice(WRONG_LINES), chance)
    spoiled_text = "\n".join(lines)
    return spoiled_text[:chance.randint(0, len(spoiled_text))] if chance.random() < 0.05 else spoiled_text


# --- A case ---


class Case(NamedTuple):
    """A history, how it is checked, and in what sizes."""

    text: bytes
    options: Options
    sizes: Sizes


KEY_SETS: Tuple[Callable[[random.Random], List[int]], ...] = (
    lambda chance: [0], lambda chance: [0, 1, 2], lambda chance: [65535, 7, 0], lambda chance: list(range(chance.randint(2, 30))),
    lambda chance: [chance.randrange(65536) for _ in range(8)],
)


def case_of(seed: int, model: Optional[str] = None) -> Case:
    """The case of this number."""
    chance = random.Random(seed)
    model = model or list(OPERATIONS)[seed % len(OPERATIONS)]
    threads = chance.choice((1, 2, 3, 5, 9, 20, 64))
    told = events_of(model, chance, threads, chance.choice((0, 3, 10, 40, 80, 160)), chance.choice(KEY_SETS)(chance), chance.choice((2, 20)))
    text = text_of(told, chance)
    if chance.random() < 0.3:
        text = spoiled(text, chance)
    concurrency = threads if chance.random() < 0.97 else max(1, min(64, threads + chance.choice((-1, 1, 3))))
    judged_as = model if chance.random() < 0.97 else chance.choice(list(OPERATIONS))
    options = Options(concurrency, judged_as, chance.choice((1, 2, 3, 5, 10, 30, 100, 1000)))
    return Case(text.encode("utf-8", "surrogateescape"), options, sizes_of(chance, len(text)))


def sizes_of(chance: random.Random, length: int) -> Sizes:
    """Small sizes, so that a short history has many pieces and shards."""
    if chance.random() < 0.1:
        return Sizes()
    small = (40, 100, 400, 1000, 5000, 1 << 20)
    return Sizes(block=chance.choice(small), line=chance.choice((200, 1 << 20)), piece=chance.choice(small), pieces=chance.choice((3, 1000)),
                 slab=chance.choice(small), shard=chance.choice(small), shards=chance.choice((1, 3, 40)), large=chance.choice(small),
                 merged=chance.choice((2, 3, 64)), keys=chance.choice((1, 2, 1 << 16)))


