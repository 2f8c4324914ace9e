"""Spellings of one event: its keys in any order, further keys with values of every kind, and any gaps between; and spellings that are not a
text. The program must answer each as it answers the plain spelling."""
from __future__ import annotations

import random
from typing import List

from .shard_histories import Told, plain, spelled

KEYS = ("time", "error", "jepsen-index", "jepsen-process", "node", "a", "typ", "types", "process-of", "fs", "val", "values", "ind", "ok?",
        "clock.offset", "x_1", "Type", "F", "a-key-of-many-letters", "a-key-of-many-letters-2")
ATOMS = ("nil", "true", "false", "0", "-0", "+7", "12", "-5", "1764294000000000000", "9223372036854775807", "-9223372036854775808",
         "9223372036854775799", "9223372036854775800", ":timeout", ":a.b-c?", ":ok", ":type")
STRINGS = ('""', '"refused"', '"a \\"b\\" \\\\ \\t\\r\\n"', '"é ∷ 𝄞"', '"] } ; #_ {"', '"\\\\"', '"tab\there"')
GAPS = (" ", " ", ", ", ",", "  ", "\t", " , ", "\r")
ODD_GAPS = (" #_ 1 ", " #_ {:type :ok} ", " #_ #_ :a \"b\" ")
BAD = ("1.5", "1e9", "007", "9223372036854775808", "-9223372036854775809", "1N", ":a/b", ":", ":1", "timeout", '"\\q"', '"open', "(1)", "\\a",
       "#inst \"2026\"", "nilx", "#{1 1}", "{:a 1, :a 2}", "{:a}", "[1 2}", '{"x" 1, "x" 2}', "[{:b {:c 1, :c 1}}]", "[" * 32 + "]" * 32)
NO_TEXT = "{:type :invoke, :type :invoke}"


def value(chance: random.Random, deep: int = 0) -> str:
    """A value of any kind that can be read."""
    what = chance.random()
    if what < 0.4 or deep > 4:
        return chance.choice(ATOMS)
    if what < 0.6:
        return chance.choice(STRINGS)
    if what < 0.8:
        return f"[{gap(chance).join(value(chance, deep + 1) for _ in range(chance.randint(0, 4)))}]"
    if what < 0.95:
        names = chance.sample(KEYS, chance.randint(0, 4))
        return f"{{{gap(chance).join(f':{name} {value(chance, deep + 1)}' for name in names)}}}"
    return chance.choice(("#{}", "#{1 :a \"x\"}", "#{[1] #{2}}", "{\"x\" 1, 2 3, [1] nil}", "[" * 20 + "]" * 20))


def gap(chance: random.Random) -> str:
    return chance.choice(ODD_GAPS if chance.random() < 0.02 else GAPS)


def further(chance: random.Random) -> List[str]:
    """Pairs that an event is not read by."""
    names = list(KEYS) if chance.random() < 0.05 else chance.sample(KEYS, chance.choice((0, 1, 1, 2, 3, 5)))
    pairs = [f":{name}{gap(chance)}{value(chance)}" for name in names]
    return pairs + [chance.choice(("\"x\" 1", "7 nil", "[1] :a", "nil nil"))] if chance.random() < 0.03 else pairs


def pairs_of(event: Told, place: int, chance: random.Random) -> List[str]:
    pairs = [f":type{gap(chance)}:{event.kind}", f":process{gap(chance)}{event.process}", f":f{gap(chance)}:{event.name}",
             f":value{gap(chance)}[{event.key}{gap(chance)}{spelled(event.part)}]"]
    return pairs + ([f":index{gap(chance)}{place}"] if chance.random() < 0.3 else []) + further(chance)


def other(event: Told, place: int, chance: random.Random) -> str:
    """The event in another spelling, on one line."""
    pairs = pairs_of(event, place, chance)
    if chance.random() < 0.8:
        chance.shuffle(pairs)
    before, behind = chance.choice(("", "", " ", ",")), chance.choice(("", "", " ", ",", " ; behind it"))
    return f"{before}{{{chance.choice(('', '', ' '))}{gap(chance).join(pairs)}{chance.choice(('', '', ' '))}}}{behind}"


def no_text(event: Told, place: int, chance: random.Random) -> str:
    """A line that is not a text, much like the event's. Its only prefixes that are texts are gaps, which have no byte."""
    pairs = pairs_of(event, place, chance)
    pairs.append(f":bad {chance.choice(BAD)}" if chance.random() < 0.5 else chance.choice(pairs))
    chance.shuffle(pairs)
    return f"{{{' '.join(pairs)}}}"


class Spelled:
    """The lines of a history twice: spelled plainly, and in other ways."""

    def __init__(self, told: List[Told], chance: random.Random) -> None:
        self.plain: List[str] = []
        self.other: List[str] = []
        for place, event in enumerate(told):
            if chance.random() < 0.1:
                self.plain.append(NO_TEXT)
                self.other.append(no_text(event, place, chance))
            self.plain.append(plain(event))
            self.other.append(other(event, place, chance))
