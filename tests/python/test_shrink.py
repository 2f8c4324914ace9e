"""The removals of shrink leave a legal history legal; and the rest of an illegal one is illegal by itself."""
from __future__ import annotations

import random
import unittest
from typing import Dict, List

from jepmon.history import Event, Operation, operations, read_history
from jepmon.history.kinds import MODELS
from jepmon.objects.configurations import UNBOUNDED, walk
from jepmon.program import Options, check
from jepmon.shrink import smallest, taken_out
from jepmon.shrinking import ways
from jepmon.shrinking.part import events_of, text_of
from jepmon.shrinking.units import with_dragged

from . import fuzz, stores
from .histories import Way

LEGAL = [Way(), Way(clients=4, crash=0.2), Way(values=2), Way(events=16, clients=5, crash=0.3, patience=0.9),
         Way(clients=3, events=40, values=9, crash=0.05, patience=0.8), Way(events=30, clients=4, crash=0.02, patience=0.95, values=3)]


def ended(part: List[Event]) -> List[Event]:
    """The events, and an :info for each operation that is open after them, which changes nothing."""
    opened: Dict[int, Event] = {}
    for event in part:
        if event.kind == "invoke":
            opened[event.process] = event
        else:
            del opened[event.process]
    return part + [event._replace(kind="info") for event in opened.values()]


class Soundness(unittest.TestCase):
    """No legal history becomes illegal, whatever is taken out. JEPMON_FUZZ=5000 in the environment sets the number for each model and seed.
    They are judged by the walk, which test_walk holds against the program, and some of them by the program."""

    def test_each_model(self) -> None:
        for model in MODELS:
            for seed in range(2):
                self.stays_legal(model, seed)

    @unittest.skipUnless(fuzz.has_program(), "there is no program")
    def test_by_the_program(self) -> None:
        for model in MODELS:
            self.stays_legal(model, 7, by_program=True)

    def stays_legal(self, model: str, seed: int, by_program: bool = False) -> None:
        draw, out, each = random.Random(seed), 0, fuzz.EACH
        for clients, histories in fuzz.batches(model, seed + 100, LEGAL[seed % len(LEGAL):] + LEGAL[:seed % len(LEGAL)], each):
            parts: Dict[int, List[Event]] = {}
            for key, events in histories.items():
                whole = operations(events[:draw.randint(1, len(events))], clients)
                left = whole
                for _ in range(draw.randint(1, 4)):
                    left = drawn(model, left, draw)
                out += len(whole) - len(left)
                parts[key] = events_of(left)
            statuses = by_the_program(parts, clients, model) if by_program else by_the_walk(parts, model)
            for key, status in statuses.items():
                self.assertEqual(status, "alive", f"{model}, {clients} clients, key {key}:\n{text_of(histories[key], clients)}\n"
                                 f"{text_of(parts[key], clients)}")
        self.assertGreater(out, each)


def by_the_walk(parts: Dict[int, List[Event]], model: str) -> Dict[int, str]:
    return {key: walk(part, model, UNBOUNDED, 1 << 40).status for key, part in parts.items()}


def by_the_program(parts: Dict[int, List[Event]], clients: int, model: str) -> Dict[int, str]:
    together = text_of([event for part in parts.values() for event in ended(part)], clients)
    return {key: line.status for key, line in fuzz.lines_of(together.encode(), Options(clients, model, 65536)).items()}


def drawn(model: str, whole: List[Operation], draw: random.Random) -> List[Operation]:
    """The rest after some units are removed."""
    units = draw.choice(ways(model, whole))
    share = draw.choice((0.1, 0.4, 1.0))
    return taken_out(whole, units, with_dragged(units, [number for number in range(len(units)) if draw.random() < share])).operations


class Parts(unittest.TestCase):
    """The rest of an illegal history is illegal at its last event, and small."""

    @unittest.skipUnless(fuzz.has_program(), "there is no program")
    def test_wrong_stores(self) -> None:
        most = {"two_winners": 8, "stale_replica": 4}
        for name, make in stores.WRONG.items():
            with self.subTest(name):
                history = make()
                options = Options(history.concurrency, history.model)
                events = read_history(history.text)
                part = smallest(events, check(history.text.encode(), options), options)
                assert part is not None
                self.assertTrue(part.finished)
                self.assertLessEqual(part.operations, most.get(name, 3))
                again = check(part.text.encode(), part.options)
                self.assertEqual((again.word, again.index), ("illegal", len(part.events) - 1))
                self.assertEqual([event.index for event in part.events], sorted({event.index for event in part.events}))
                kept = {event.index: event for event in events}
                for event in part.events:
                    self.assertEqual(event._replace(value=None, text=""), kept[event.index]._replace(value=None, text=""))

    @unittest.skipUnless(fuzz.has_program(), "there is no program")
    def test_legal_and_unknown(self) -> None:
        for name, make in stores.UNKNOWN.items():
            history = make()
            options = Options(history.concurrency, history.model)
            self.assertIsNone(smallest(read_history(history.text), check(history.text.encode(), options), options), name)

    @unittest.skipUnless(fuzz.has_program(), "there is no program")
    def test_processes_are_numbered_anew(self) -> None:
        """A client that has timed out before on another key goes on with its number, as a history by itself wants it."""
        lines = ["{:type :invoke, :process 0, :f :write, :value [1 5]}", "{:type :info, :process 0, :f :write, :value [1 5]}",
                 "{:type :invoke, :process 2, :f :read, :value [7 nil]}", "{:type :ok, :process 2, :f :read, :value [7 5]}"]
        raw = "\n".join(lines)
        part = smallest(read_history(raw), check(raw.encode()), Options())
        assert part is not None
        self.assertEqual([event.process for event in part.events], [2, 2])
        self.assertEqual(part.text, "{:type :invoke, :process 0, :f :read, :value [7 nil], :original-index 2}\n"
                         "{:type :ok, :process 0, :f :read, :value [7 5], :original-index 3}\n")
