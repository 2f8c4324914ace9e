"""An object that is changed in place does what the table of models says."""
from __future__ import annotations

import random
import unittest
from typing import Dict, Tuple

from jepmon.history.kinds import ANSWERED, MODELS
from jepmon.objects import START, Found, Part, rule
from jepmon.objects.replay import OBJECTS

NAMES = sorted({name for names in MODELS.values() for name in names})
STEPS = 400


def part_of(name: str, draws: random.Random) -> Part:
    return (draws.randrange(3), draws.randrange(3)) if name == "cas" else draws.randrange(4) if name in ("write", "add", "enqueue") else None


class AsTheTable(unittest.TestCase):
    def test_each_kind(self) -> None:
        for model in MODELS:
            draws = random.Random(model)
            seen: Dict[Tuple[str, bool, bool], int] = {}
            for _ in range(20):
                state, replayed = START[model], OBJECTS[model]()
                for _ in range(draws.randrange(STEPS // 10)):
                    name = draws.choice(sorted(MODELS[model]) if draws.random() < 0.9 else NAMES)
                    part = part_of(name, draws)
                    outcomes = rule(model, name)(state, part)
                    has_answer = name in ANSWERED and draws.random() < 0.7
                    answers = [found for _, found in outcomes] + [None, 1, frozenset({1})]
                    answer: Found = draws.choice(answers[:1] * 5 + answers)
                    right = [outcome for outcome in outcomes if not has_answer or outcome[1] == answer]
                    with self.subTest(model=model, name=name, state=state, part=part, answer=answer):
                        taken = replayed.take(name, part, (answer,) if has_answer else None)
                        self.assertEqual(taken, (right[0][1],) if right else None)
                        state = right[0][0] if right else state
                        self.assertEqual(replayed.state(), state)
                    seen[name, has_answer, bool(right)] = seen.get((name, has_answer, bool(right)), 0) + 1
            for name in MODELS[model]:
                self.assertGreater(seen[name, name in ANSWERED, True], 5, (model, name))


if __name__ == "__main__":
    unittest.main()
