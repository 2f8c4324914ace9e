"""Cases of the fuzzer: a history, its right verdict, and how it is printed; and the smallest case with the same wrong verdict."""
from __future__ import annotations

import functools
import random
from typing import Dict, Iterator, List, NamedTuple, Optional, Sequence, Set

from . import truth
from .fields import Variations, options_of, ticks_of
from .histories import MODELS, Op, simulated, size_of
from .judged import Judged, Room, Usual
from .printed import FORMS, OF_EVENTS, REGISTERS_ALONE, Printed, drawn, printed, settled

TOGETHER = 100  # cases whose verdicts are asked for at once
PLAIN = 18  # histories of each model by which the usual lines of a form are learned
HARMLESS: Sequence[Variations] = ({}, {"keys": "str"}, {"values": "str", "clients": "str"})  # variations that ask for no warning
SETTLED_BY = {"skew": "--skew", "missing": "--absent", "gozero": "--absent"}  # the option that settles a variation
KEPT = ("form", "seed")  # of the variations: what is none


class Case(NamedTuple):
    model: str
    ops: List[Op]
    right: str
    ways: Variations

    @property
    def form(self) -> str:
        return str(self.ways["form"])

    def printed(self) -> Printed:
        return printed(self.ops, self.model, self.ways)

    def variations(self) -> List[str]:
        return sorted(name for name in self.ways if name not in KEPT)


class Wrong(NamedTuple):
    """A verdict that is not the right one, though nothing was refused."""

    case: Case
    judged: Judged
    warnings: List[str]
    is_settled: bool  # a line names an option, and with it the verdict is right

    @property
    def word(self) -> str:
        """SILENT, NOTED, SETTLED, or CLOCKS: the verdict is right by the times that were printed, and a line says that they have to be of
        one clock."""
        if not self.warnings:
            return "SILENT"
        return "SETTLED" if self.is_settled else "CLOCKS" if "skew" in self.case.ways else "NOTED"

    def signature(self) -> str:
        """The class of the fault, for the counts."""
        ways = " ".join(f"{name}={self.case.ways[name]}" for name in self.case.variations())
        return f"{self.word} {self.case.right}->{self.judged.word} {self.case.form}: {ways}"


def cases(seed: int, count: int, form: Optional[str] = None) -> Iterator[Case]:
    """So many cases; the same seed gives the same."""
    for first in range(0, count, TOGETHER):
        yield from _batch(random.Random(f"{seed} {first}"), min(TOGETHER, count - first), form)


def _batch(chance: random.Random, count: int, form: Optional[str]) -> List[Case]:
    made = [_legal(chance, form or chance.choice(FORMS)) for _ in range(count)]
    by_model: Dict[str, List[int]] = {}
    undecided: Set[int] = set()
    for place, case in enumerate(made):
        by_model.setdefault(case.model, []).append(place)
    for model, places in by_model.items():
        words = truth.verdicts(model, [made[place].ops for place in places])
        assert "illegal" not in words, "an atomic object gave a history that is illegal"
        known = [place for place, word in zip(places, words) if word == "legal"]  # and not over the budget
        undecided.update(set(places) - set(known))
        some = [place for place in known if chance.random() < 0.5]
        for place, ops in zip(some, truth.made_illegal(chance, model, [made[place].ops for place in some])):
            if ops is not None:
                made[place] = made[place]._replace(ops=ops, right="illegal")
    return [case for place, case in enumerate(made) if place not in undecided]


def _legal(chance: random.Random, form: str) -> Case:
    model = "register" if form in REGISTERS_ALONE else chance.choice(MODELS)
    has_no_keys = chance.random() < 0.15
    ops = simulated(chance, model, size_of(chance, 1 if has_no_keys else chance.choice((1, 2, 3))))
    return Case(model, replaced(ops) if form in OF_EVENTS else ops, "legal", drawn(chance, form, has_no_keys))


def replaced(ops: List[Op]) -> List[Op]:
    """The same operations, where a client whose operation never returns does no more: another one takes its place."""
    clients = {op.client: op.client for op in ops}
    fresh = max(clients, default=0) + 1
    made = []
    for op in ops:
        made.append(op._replace(client=clients[op.client]))
        if op.end is None:
            clients[op.client], fresh = fresh, fresh + 1
    return made


# --- What is wrong ---

class Examiner:
    """Judges cases, and keeps what the tool usually says."""

    def __init__(self, room: Room) -> None:
        self.room, self.usual = room, Usual()

    def judged(self, case: Case) -> Judged:
        return self.room.judged(case.printed(), "--no-cause")

    def wrong(self, case: Case, judged: Judged) -> Optional[Wrong]:
        """The fault in the verdict; None if it is right, or if there is none. A wrong one is asked for again as a user would, with all that
        is said beside it."""
        if judged.word not in ("legal", "illegal") or judged.word == case.right or self.is_within_errors(case):
            return None
        again = self.room.judged(case.printed())
        self.learn(case.form)
        options = [SETTLED_BY[name] for name in case.variations() if name in SETTLED_BY]
        return Wrong(case, again, self.usual.warnings(case.form, again, options), self.is_settled(case, again))

    def is_settled(self, case: Case, judged: Judged) -> bool:
        """Whether the lines name the options for the values of the case, and with these options the verdict is right."""
        options = [word for word in options_of(case.ways) if word.startswith("--")]
        if "said" in case.ways or not options or not all(any(option in line for line in judged.lines) for option in options):
            return False
        return self.judged(case._replace(ways={**case.ways, "said": 1})).word == case.right

    def is_within_errors(self, case: Case) -> bool:
        """Whether an illegal history may have been legal by the printed times. This is so for stated errors of clocks, and for times so
        coarse that a call and a return have the same time."""
        ways = settled(case.ways)
        if case.right == "legal" or not ("error" in ways or ways.get("times") == "coarse"):
            return False
        ops = truth.widened(case.ops, ways.get("error", 0), functools.partial(ticks_of, ways=ways))
        return truth.verdict(case.model, ops) != "illegal"

    def learn(self, form: str) -> None:
        if self.usual.knows(form):
            return
        chance, said = random.Random(f"usual {form}"), []
        for model in ("register",) if form in REGISTERS_ALONE else MODELS:
            legal = [simulated(chance, model, size_of(chance, 1 + place % 3)) for place in range(PLAIN)]
            illegal = [ops for ops in truth.made_illegal(chance, model, legal) if ops is not None]
            said += [self.room.judged(printed(ops, model, {"form": form, **HARMLESS[place // 3 % 3]}))
                     for place, ops in enumerate(legal + illegal)]
        self.usual.learn(form, said)

    def again(self, case: Case) -> Optional[Wrong]:
        """Whether a smaller case is wrong too."""
        return self.wrong(case, self.judged(case))

    def smallest(self, wrong: Wrong) -> Wrong:
        """A case with the same wrong verdict: fewer variations, then fewer operations."""
        wrong = self._fewer_variations(wrong)
        size = max(1, len(wrong.case.ops) // 2)
        while size >= 1:
            place = 0
            while place < len(wrong.case.ops):
                found = self._smaller(wrong, wrong.case.ops[:place] + wrong.case.ops[place + size:])
                wrong, place = (found, place) if found is not None else (wrong, place + size)
            size //= 2
        return self._fewer_variations(wrong)

    def _fewer_variations(self, wrong: Wrong) -> Wrong:
        for name in wrong.case.variations():
            ways = {other: way for other, way in wrong.case.ways.items() if other != name}
            found = self.again(wrong.case._replace(ways=ways))
            wrong = found if found is not None and found.judged.word == wrong.judged.word else wrong
        return wrong

    def _smaller(self, wrong: Wrong, ops: Sequence[Op]) -> Optional[Wrong]:
        case = wrong.case._replace(ops=list(ops))
        if not ops or truth.verdict(case.model, ops) != case.right:
            return None
        found = self.again(case)
        return found if found is not None and found.judged.word == wrong.judged.word else None
