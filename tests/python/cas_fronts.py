"""The ends of a register with compare and set, and their fronts, computed by their definition alone (`CasEnds.antt`): slow, and
short enough to be compared with it line by line. The tests compare the program's kind wide-cas-register with it."""
from __future__ import annotations

from typing import Iterator, List, NamedTuple, Optional

from .lean_ends import LeanEnd, Register, without


class Front(NamedTuple):
    """An end before an answer, after a walk of operations that took place one after another, and whether the walk ends with a write."""

    end: LeanEnd
    writes: bool


class CasRegister(Register):
    """One register's history: its ends, and `alive`, `dead I` or `over I`."""

    def made(self, op: int, kind: str, answer: Optional[int]) -> Optional[List[LeanEnd]]:
        fronts = self.fronts() if kind == "ok" else []
        if len(fronts) > self.budget:
            return None
        made = [end for before in self.ends for end in self.after(before, op, kind, answer)]
        return made + [end for front in fronts for end in self.behind(front, op, answer)]

    # --- What comes of one end, without a walk, and of a front ---

    def after_ok(self, end: LeanEnd, op: int, name: str, answer: Optional[int]) -> Iterator[LeanEnd]:
        if name != "read" and op in end.needed or name == "read" and (op, answer) in end.finds:
            yield without(end, op)
        elif name == "write" and op in end.door:
            yield without(self.before(end, op), op)
        elif name == "read" and op in end.door:
            for write in self.writes_of(answer):
                if write not in end.needed and write in end.door:
                    yield without(self.before(end, write), op)

    def behind(self, front: Front, op: int, answer: Optional[int]) -> Iterator[LeanEnd]:
        name, _ = self.opened[op]
        if name == "read":
            if answer is None or front.end.state == answer:
                yield without(front.end, op)
        else:
            yield from (without(next.end, op) for next in self.next_by(front, op))

    # --- Fronts ---

    def fronts(self) -> List[Front]:
        """Those of all ends, layer upon layer; some layers, if they are more than the budget."""
        there = layer = [Front(end, False) for end in self.ends]
        while layer and len(there) <= self.budget:
            layer = self.layer(there, layer)
            there = there + layer
        return there

    def layer(self, there: List[Front], layer: List[Front]) -> List[Front]:
        """The fronts that one more operation makes of a layer. A front that is less than a front in `there`, or than another new one, is
        left out."""
        new: List[Front] = []
        for front in [made for before in layer for op in self.changes for made in self.next_by(before, op)]:
            if not any(self.is_less(front, other) for other in there + new):
                new = [other for other in new if not self.is_less(other, front)] + [front]
        return new

    def next_by(self, front: Front, op: int) -> Iterator[Front]:
        """The operation takes place behind all others, if it may: no write right behind a write, which it would hide."""
        end, part = front.end, self.changes[op]
        if op in end.needed:
            return
        needed = end.needed | {op}
        if isinstance(part, tuple):
            if end.state == part[0]:
                yield Front(LeanEnd(part[1], needed, end.door, self.found(end, part[1])), False)
        elif isinstance(part, int) and not front.writes:
            writes = frozenset(each for each, value in self.changes.items() if isinstance(value, int))
            yield Front(LeanEnd(part, needed, (self.reads | writes) - needed, self.found(end, part)), True)

    def is_less(self, front: Front, other: Front) -> bool:
        return self.is_at_most(front.end, other.end) and (front.writes or not other.writes)
