"""The walk says of each recorded history what the program said, and gives orders that are legal."""
from __future__ import annotations

import collections
import random
import unittest
from typing import Dict, List, Set

from jepmon import history
from jepmon.history.kinds import BUDGETS, MODELS, WIDE, model_of
from jepmon.objects import START, State, rule
from jepmon.objects.configurations import End, Walk, walk
from jepmon.program import Options
from jepmon.shrinking.units import precedes

from . import fuzz, recorded
from .histories import Clients, Way, text_of

UNBOUNDED = 1 << 40


def verdict(walks: Dict[int, Walk]) -> str:
    """The verdict that the statuses of all keys give."""
    for status, word in (("dead", "illegal"), ("over", "unknown")):
        found = [(walked.index or 0, key) for key, walked in walks.items() if walked.status == status]
        if found:
            return f"{word} key {min(found)[1]} index {min(found)[0]}"
    return "legal"


def walks_of(judged: recorded.Judged) -> Dict[int, Walk]:
    return {key: walk_of(judged, key) for key in sorted({event.key for event in judged.events if event.process != history.NEMESIS})}


def walk_of(judged: recorded.Judged, key: int) -> Walk:
    """A walk counts all ends. A wide kind counts something else, so there the walk has no budget."""
    kind = judged.models.get(key, judged.model)
    budget = judged.budgets.get(key, judged.budget) if kind in MODELS else UNBOUNDED
    return walk(history.of_key(judged.events, key), model_of(kind), budget, work=20_000_000)


class Recorded(unittest.TestCase):
    def test_checks(self) -> None:
        count = 0
        for judged in recorded.checks():
            with self.subTest(case=judged.name):
                self.assertEqual(verdict(walks_of(judged)), judged.verdict)
                count += 1
        self.assertGreater(count, 40)

    def test_scripts(self) -> None:
        count = 0
        for judged in recorded.scripts():
            if judged.is_wide and judged.verdict.startswith("unknown"):
                continue
            with self.subTest(case=judged.name, events=len(judged.events)):
                self.assertEqual(verdict(walks_of(judged)), judged.verdict)
                count += 1
        self.assertGreater(count, 400)


class Orders(unittest.TestCase):
    """Each end is what its order leaves, and its order is a legal one."""

    def test_orders(self) -> None:
        draw = random.Random(3)
        for model in MODELS:
            for number in range(40):
                way = Way(events=draw.choice((10, 20)), clients=draw.choice((2, 3, 4)), wrong=0.04, crash=0.2, patience=0.6)
                events = Clients(draw, way.clients).history(model, way)[:draw.choice((7, 15, 30))]
                walked = walk(events, model, 4096)
                front = [step.event for step in walked.steps][:-1 if walked.status == "dead" else None]
                made = {operation.invocation.index: operation for operation in history.operations(front, way.clients)}
                for end in walked.ends():
                    self.is_legal(model, made, end)

    def is_legal(self, model: str, made: Dict[int, history.Operation], end: End) -> None:
        order = [made[id] for id in end.order]
        inside = set(end.order)
        self.assertEqual(len(inside), len(order))
        for operation in order:
            self.assertNotEqual(operation.outcome, "fail")
        for id, operation in made.items():
            self.assertTrue(id in inside or operation.outcome != "ok")
            counts = operation.outcome == "open" or operation.outcome == "info" and operation.invocation.name != "read"
            self.assertEqual(id in end.taken, counts and id in inside)
        for place, operation in enumerate(order):
            self.assertFalse(any(precedes(later, operation) for later in order[place + 1:]))
        self.assertIn(end.state, self.states(model, order, end))

    def states(self, model: str, order: List[history.Operation], end: End) -> Set[State]:
        """The states that the order may leave, with the answer of each operation."""
        states: Set[State] = {START[model]}
        for operation in order:
            name, id = operation.invocation.name, operation.invocation.index
            after = {outcome for state in states for outcome in rule(model, name)(state, operation.invocation.value)}
            if name in ("read", "dequeue") and operation.outcome == "ok" and operation.completion is not None:
                answer = operation.completion.value
                after = {outcome for outcome in after if answer is None or outcome[1] == answer}
            elif name in ("read", "dequeue") and operation.outcome == "open":
                after = {outcome for outcome in after if outcome[1] == end.taken[id]}
            states = {state for state, _ in after}
        return states


WAYS = [Way(), Way(wrong=0.05), Way(clients=4, wrong=0.1, crash=0.2), Way(values=2, wrong=0.03, alien=0.03),
        Way(events=60, wrong=0.02), Way(events=14, clients=5, wrong=0.1, crash=0.3), Way(clients=2, events=40, values=9, wrong=0.05)]


@unittest.skipUnless(fuzz.has_program(), "there is no program")
class Fuzzed(unittest.TestCase):
    """The walk says of random histories what the program says. JEPMON_FUZZ=1500 in the environment sets the number for each model and
    budget."""

    def agree(self, model: str, budget: int, seed: int) -> collections.Counter[str]:
        statuses: collections.Counter[str] = collections.Counter()
        for clients, histories in fuzz.batches(model, seed, WAYS[seed % len(WAYS):] + WAYS[:seed % len(WAYS)]):
            lines = fuzz.checked(histories, Options(clients, model, budget, by_ends=True))
            for key, events in histories.items():
                walked = walk(events, model, budget, work=1 << 40)
                self.assertEqual((walked.status, walked.index), (lines[key].status, lines[key].index), text_of(events).decode())
                statuses[walked.status] += 1
        return statuses

    def test_wide_kinds_judge_the_same_objects(self) -> None:
        """Where a walk comes to an end, the program says its status of the wide kind, if it decides it. It decides each set and each unordered queue."""
        for model in WIDE:
            decided = 0
            for clients, histories in fuzz.batches(model, 11, WAYS):
                lines = fuzz.checked(histories, Options(clients, model, BUDGETS[-1]))
                for key, events in histories.items():
                    walked = walk(events, model, 1 << 20, work=1 << 40)
                    if lines[key].status != "over" and walked.status != "over":
                        self.assertEqual((walked.status, walked.index), (lines[key].status, lines[key].index), text_of(events).decode())
                        decided += 1
                    self.assertTrue(model not in ("set", "unordered-queue") or not lines[key].is_wide or lines[key].status != "over")
            self.assertGreater(decided, fuzz.EACH // 2, model)

    def test_each_model(self) -> None:
        for model in MODELS:
            statuses: collections.Counter[str] = collections.Counter()
            for seed, budget in enumerate((4096, 4096, 1, 5, 12, 30, 100)):
                with self.subTest(model=model, budget=budget):
                    statuses += self.agree(model, budget, seed)
            self.assertGreater(min(statuses[status] for status in ("alive", "dead", "over")), fuzz.EACH // 10, model)
