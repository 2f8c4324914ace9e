"""Decides registers with repeated values. An operation takes place only when an operation that must take place returns, and a read as soon
as the register has its value. A write that nobody needs is hidden: it may take place right before another write, while it is open, or when
the register has its value already. So it needs no moment until it returns. The search tries the operations whose values are visible: each
visited state has a reader, or a cas from it.

After an early wrong choice a search would try later choices for a very long time. So after some steps it begins again, in another order and
with more steps, and keeps its list of failed states."""
from __future__ import annotations

import bisect
import random
from typing import Dict, Iterator, List, NamedTuple, Optional, Sequence, Set, Tuple, cast

from .failed import Failed
from .later import Later
from .locks import events_of
from .operation import Answer, Clock, Conflict, Op, Order
from .zones import brings, needs

FIRST = 2000  # steps of the first try
SWAPPED = 0.25  # the share of choices in which a later try hides an operation first that an earlier try shows first, or the other way round


class TooLong(Exception):
    """A try has used its steps."""


class State(NamedTuple):
    """The value of the register; the open operations that have taken place, and the writes that may be hidden, as bits; and the number of
    placed operations."""

    value: Optional[int]
    taken: int
    free: int
    placed: int


class Search:
    """The search, event by event. If it can't continue, it goes back to the last choice."""

    def __init__(self, ops: Sequence[Op], clock: Clock) -> None:
        self.clock = clock
        self.events = events_of(ops)
        self.bit = seats(self.events)
        self.later = Later(self.events)
        self.failed = Failed()
        self.furthest = -1
        self.blamed: List[int] = []
        self.begin_anew(0)

    def begin_anew(self, number: int) -> None:
        """Begins a try."""
        self.number = number
        self.chance = random.Random(number)
        self.steps = FIRST << min(number // 2, 40)
        self.at = 0  # the next event
        self.value: Optional[int] = None
        self.taken = self.free = self.reads = self.lost = 0  # the last two: open reads, and open operations that do not return
        self.open: Dict[int, Op] = {}
        self.placed: List[Tuple[int, Op]] = []  # the placed operations in their order, each with its moment
        self.hidden: List[Op] = []

    def run(self) -> Answer:
        number = 0
        while True:
            try:
                return self.tried()
            except TooLong:
                number += 1
                self.begin_anew(number)

    def tried(self) -> Answer:
        stops: List[Tuple[int, State, int, Iterator[None]]] = []  # the event, the state there, and the remaining ways
        while self.forward():
            ways = self.ways(self.events[self.at][2])
            while next(ways, self) is self:
                self.blame()
                if not stops:
                    return Conflict(self.blamed)
                at, state, hidden, ways = stops.pop()
                self.back(at, state, hidden)
            stops.append((self.at, self.state(), len(self.hidden), ways))
            self.end(self.events[self.at][2])
            self.at += 1
        return Order(self.order())

    # --- Events ---

    def forward(self) -> bool:
        """Continues to the next event at which a choice is needed. Returns whether there is one."""
        while self.at < len(self.events):
            self.clock.step()
            _, is_end, op = self.events[self.at]
            if not is_end:
                self.begin(op)
            elif self.has_to_decide(op):
                return True
            else:
                self.end(op)
            self.at += 1
        return False

    def begin(self, op: Op) -> None:
        self.enter(op)
        if brings(op) is None:
            if needs(op) == self.value:
                self.take(op, op.invoked)
        elif op.name == "write" and op.part == self.value and op.is_done:
            self.free |= self.bit[op.id]

    def end(self, op: Op) -> None:
        """Removes an operation that has returned, and has taken place or is hidden."""
        bit = self.bit[op.id]
        if not self.taken & bit:
            self.hidden.append(op)
        self.taken &= ~bit
        self.free &= ~bit
        self.leave(op)

    def enter(self, op: Op) -> None:
        self.open[op.id] = op
        self.reads |= self.bit[op.id] if brings(op) is None else 0
        self.lost |= 0 if op.is_done else self.bit[op.id]

    def leave(self, op: Op) -> None:
        del self.open[op.id]
        self.reads &= ~self.bit[op.id]
        self.lost &= ~self.bit[op.id]

    def has_to_decide(self, op: Op) -> bool:
        bit = self.bit[op.id]
        if self.taken & bit:
            return False
        if op.name != "write" or not self.free & bit:
            return True
        if op.part != self.value:
            return self.is_useful(op)
        if len(self.moves(op)) > 1:
            return True
        self.show(op, op.completed)
        return False

    def back(self, at: int, state: State, hidden: int) -> None:
        """Goes back to the operation that returns at this event, in the state at this choice."""
        for _, is_end, op in self.events[at:self.at][::-1]:
            if is_end:
                self.enter(op)
            else:
                self.leave(op)
        self.at = at
        self.restore(state)
        del self.hidden[hidden:]

    # --- Steps ---

    def state(self) -> State:
        return State(self.value, self.taken, self.free, len(self.placed))

    def restore(self, state: State) -> None:
        self.value, self.taken, self.free, placed = state
        del self.placed[placed:]

    def take(self, op: Op, moment: int) -> None:
        self.taken |= self.bit[op.id]
        self.free &= ~self.bit[op.id]
        self.placed.append((moment, op))

    def show(self, op: Op, moment: int) -> None:
        """Lets a write or a cas take place, and then all open reads that find its value."""
        self.take(op, moment)
        self.value = brings(op)
        for other in self.open.values():
            bit = self.bit[other.id]
            if self.taken & bit or not other.is_done:
                continue
            if brings(other) is None:
                if needs(other) == self.value:
                    self.take(other, moment)
            elif other.name == "write" and (op.name == "write" or other.part == self.value):
                self.free |= bit

    def is_useful(self, op: Op) -> bool:
        """Whether anything may need the value of a write that returns now."""
        value = cast(int, op.part)
        if any(needs(other) == value and not self.taken & self.bit[other.id] for other in self.open.values()):
            return True
        return self.later.is_needed(value, self.at)

    # --- Choices ---

    def ways(self, op: Op) -> Iterator[None]:
        """Tries each way to let this operation take place before it returns, with the other operations that this needs: one way for each
        yield. Afterwards the state is as before."""
        before = self.state()
        if self.free & self.bit[op.id] and op.part != self.value:
            shows_first = self.is_urgent(op) != (self.number > 1 and self.chance.random() < SWAPPED)
            for hides in (False, True) if shows_first else (True, False):
                yield from self.explored(True) if hides else self.towards(op, op.completed)
                self.restore(before)
        else:
            yield from self.towards(op, op.completed)

    def explored(self, is_decided: bool, op: Optional[Op] = None) -> Iterator[None]:
        """Continues from this state, unless the state is known to fail: by the possible next operations or, on the way to an operation, by
        the operations that lead there."""
        best = self.free | self.reads & self.taken | self.lost & ~self.taken
        state = (2 * self.at + is_decided, self.value), best, self.taken
        if state in self.failed:
            return
        if is_decided or op is None:
            yield None
        else:
            yield from self.towards(op, op.completed)
        self.failed.add(state)

    def towards(self, op: Op, moment: int) -> Iterator[None]:
        """Tries each way in which the operation can take place."""
        self.clock.step()
        self.steps -= 1
        if self.steps < 0:
            raise TooLong
        before = self.state()
        for move in self.moves(op):
            self.show(move, moment)
            yield from self.explored(bool(self.taken & self.bit[op.id]), op)
            self.restore(before)

    def moves(self, wanted: Op) -> List[Op]:
        """The operations that may take place now, the likeliest first. If several have the same effect, only the one that returns first is
        among them."""
        needed: Set[Optional[int]] = set()
        for op in self.open.values():
            if not self.taken & self.bit[op.id]:
                needed.add(needs(op))
        found: Dict[Tuple[str, int], Op] = {}
        for op in self.open.values():
            value = brings(op)
            if value is None or self.taken & self.bit[op.id]:
                continue
            if op.name == "cas" and needs(op) != self.value:
                continue
            if op is not wanted and op.name == "write" and (value not in needed or value == self.value):
                continue
            same = found.get((op.name, value))
            if same is None or (op.completed, op.id) < (same.completed, same.id):
                found[op.name, value] = op
        return self.ranked(list(found.values()), wanted)

    def ranked(self, moves: List[Op], wanted: Op) -> List[Op]:
        """The order of the moves. In the first try a cas comes first, since the value that it needs is there now. Then come the moves that
        lead to the operation at once."""
        goal = wanted if brings(wanted) is not None else None
        value = needs(wanted) if goal is None else None

        def rank(op: Op) -> Tuple[bool, bool, float]:
            leads = op is goal or goal is None and brings(op) == value
            favoured = op.name == "cas" and op.is_done if self.number % 2 == 0 else leads
            return not favoured, not leads, op.completed if self.number < 2 else self.chance.random()

        return sorted(moves, key=rank)

    def is_urgent(self, op: Op) -> bool:
        """Whether the value of a write is needed next, and no other open operation writes this value."""
        value = cast(int, op.part)
        if any(brings(other) == value and other is not op and not self.taken & self.bit[other.id] for other in self.open.values()):
            return False
        open_ones = [other for other in self.open.values() if needs(other) is not None and not self.taken & self.bit[other.id]]
        first = min(open_ones, key=lambda other: other.completed, default=None)
        return self.later.is_first(value, self.at, first)

    def blame(self) -> None:
        if self.at > self.furthest:
            self.furthest = self.at
            self.blamed = [self.events[self.at][2].id]

    # --- The order ---

    def order(self) -> List[int]:
        """The order: the placed operations, and the hidden operations among them."""
        values: List[Optional[int]] = [None]  # the value before each placed operation
        for _, op in self.placed:
            value = brings(op)
            values.append(values[-1] if value is None else value)
        moments = [moment for moment, _ in self.placed]
        before: Dict[int, List[int]] = {}
        for op in self.hidden:
            place = bisect.bisect_right(moments, op.invoked)
            while values[place] != op.part and self.placed[place][1].name != "write":
                place += 1
            before.setdefault(place, []).append(op.id)
        order: List[int] = []
        for place in range(len(self.placed) + 1):
            order += sorted(before.get(place, ()))
            order += [op.id for _, op in self.placed[place:place + 1]]
        return order


def seats(events: Sequence[Tuple[int, bool, Op]]) -> Dict[int, int]:
    """A bit for each operation. No two operations that are open at the same time have the same bit."""
    free: List[int] = []
    bits: Dict[int, int] = {}
    count = 0
    for _, is_end, op in events:
        if is_end:
            free.append(bits[op.id])
        elif free:
            bits[op.id] = free.pop()
        else:
            bits[op.id] = 1 << count
            count += 1
    return bits


def solve(ops: Sequence[Op], clock: Clock) -> Answer:
    return Search(ops, clock).run()
