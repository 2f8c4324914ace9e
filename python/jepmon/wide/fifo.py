"""Decides FIFO queues. Dequeues take place only when a dequeue returns, and then as few as possible. The enqueues show which element a
dequeue takes: an element can be the first if no other element of the queue was certainly enqueued before it. Among the possible elements
with the wanted value, the search takes the one whose enqueue returns first, since it blocks others the most. So a search has few choices:
whether a timed-out dequeue takes an element that blocks others, and, if a value is in the queue twice, which of the two is first.

If each value is enqueued once, there is no choice."""
from __future__ import annotations

import collections
import random
from typing import Counter, Dict, Iterator, List, NamedTuple, Optional, Sequence, Set, Tuple, cast

from .elements import Elements
from .failed import HELD
from .locks import events_of
from .operation import NEVER, Answer, Clock, Conflict, Op, Order, by_moments


class Removal(NamedTuple):
    """The removal of an element from the queue."""

    element: Op
    dequeue: Op
    wanted: Op  # the dequeue that was about to return
    moment: int


class Queue:
    """The elements of the queue, and the open dequeues, at a moment of a search. Each step can be undone, the last one first."""

    def __init__(self, ops: Sequence[Op]) -> None:
        chance = random.Random(0)
        self.marks = {op.id: chance.getrandbits(64) for op in ops}
        self.mark = 0  # a number that represents the removed elements and their dequeues
        self.elements = Elements()  # the elements whose enqueue returns
        self.unsure: Dict[int, List[Op]] = collections.defaultdict(list)  # the elements whose enqueue does not return, by their values
        self.used_unsure: Counter[int] = collections.Counter()  # how many of these were used, by value
        self.spare: Counter[int] = collections.Counter()  # for each value: how many elements a dequeue without an answer may take
        self.gone: Set[int] = set()  # elements that were removed, and dequeues that have taken place
        self.open: Dict[int, Dict[int, Op]] = collections.defaultdict(dict)  # dequeues by their answers
        self.lost: List[Op] = []  # dequeues that have been invoked and do not return
        self.used = 0  # how many of these were used
        self.removals: List[Removal] = []
        for op in ops:
            if op.name == "enqueue":
                self.spare[cast(int, op.part)] += 1
            elif op.is_done:
                self.spare[cast(int, op.answer)] -= 1

    # --- Events ---

    def begin(self, op: Op) -> None:
        if op.name == "dequeue":
            if op.is_done:
                self.open[cast(int, op.answer)][op.id] = op
            else:
                self.lost.append(op)
        elif op.is_done:
            self.elements.append(op)
        else:
            self.unsure[cast(int, op.part)].append(op)

    def unbegin(self, op: Op) -> None:
        if op.name == "dequeue":
            if op.is_done:
                del self.open[cast(int, op.answer)][op.id]
            else:
                self.lost.pop()
        elif op.is_done:
            self.elements.pop(op)
        else:
            self.unsure[cast(int, op.part)].pop()

    # --- Steps ---

    def remove(self, removal: Removal) -> None:
        element, dequeue = removal.element, removal.dequeue
        self.removals.append(removal)
        self.gone |= {element.id, dequeue.id}
        self.mark ^= self.marks[element.id] ^ (self.marks[dequeue.id] if dequeue.is_done else 0)
        if element.is_done:
            self.elements.remove(element)
        else:
            self.used_unsure[cast(int, element.part)] += 1
        if not dequeue.is_done:
            self.used += 1
            self.spare[cast(int, element.part)] -= 1

    def undo(self) -> None:
        element, dequeue, _, _ = self.removals.pop()
        self.gone -= {element.id, dequeue.id}
        self.mark ^= self.marks[element.id] ^ (self.marks[dequeue.id] if dequeue.is_done else 0)
        if element.is_done:
            self.elements.put_back(element)
        else:
            self.used_unsure[cast(int, element.part)] -= 1
        if not dequeue.is_done:
            self.used -= 1
            self.spare[cast(int, element.part)] += 1

    # --- Questions ---

    def unsure_of(self, value: int, bound: int) -> Optional[Op]:
        """An element with this value whose enqueue does not return, and that can be the first."""
        every, used = self.unsure[value], self.used_unsure[value]
        return every[used] if used < len(every) and every[used].invoked < bound else None

    def takers(self, element: Op) -> Iterator[Op]:
        """The dequeues that may take an element, the likeliest first."""
        value = cast(int, element.part)
        open_ones = [op for op in self.open[value].values() if op.id not in self.gone]
        if open_ones:
            yield min(open_ones, key=lambda op: op.completed)
        if self.used < len(self.lost) and self.spare[value] > 0:
            yield self.lost[self.used]


class Search:
    """The search, event by event. If it can't continue, it goes back to the last choice."""

    def __init__(self, ops: Sequence[Op], clock: Clock) -> None:
        self.ops, self.clock = ops, clock
        self.events = events_of(ops)
        self.queue = Queue(ops)
        self.at = 0  # the next event
        self.seen: Set[Tuple[int, int]] = set()
        self.furthest = -1
        self.blamed: List[int] = []

    def run(self) -> Answer:
        stops: List[Tuple[int, int, Iterator[None]]] = []  # the event, the number of removed elements at this choice, and the remaining ways
        while self.forward():
            ways = self.ways(self.events[self.at][2])
            while next(ways, self) is self:
                if not stops:
                    return Conflict(self.blamed)
                at, removals, ways = stops.pop()
                self.back(at, removals)
            stops.append((self.at, len(self.queue.removals), ways))
            self.at += 1
        return self.order()

    def forward(self) -> bool:
        """Continues to the next dequeue that returns and has not taken place. Returns whether there is one."""
        queue = self.queue
        while self.at < len(self.events):
            self.clock.step()
            _, is_end, op = self.events[self.at]
            if not is_end:
                queue.begin(op)
            elif op.name == "dequeue":
                del queue.open[cast(int, op.answer)][op.id]
                if op.id not in queue.gone:
                    return True
            self.at += 1
        return False

    def back(self, at: int, removals: int) -> None:
        """Goes back to the dequeue that returns at this event, to the state in which this number of elements was removed."""
        queue = self.queue
        while len(queue.removals) > removals:
            queue.undo()
        while self.at > at:
            _, is_end, op = self.events[self.at]
            if not is_end:
                queue.unbegin(op)
            elif op.name == "dequeue":
                queue.open[cast(int, op.answer)][op.id] = op
            self.at -= 1

    def ways(self, wanted: Op) -> Iterator[None]:
        """Tries each way to let this dequeue take place, with the other operations that must take place before it: one way for each yield.
        Afterwards the state is as before."""
        self.clock.step()
        queue, moment = self.queue, wanted.completed
        value = cast(int, wanted.answer)
        found = queue.elements.front()
        blocker = min(found, key=lambda op: op.completed, default=None)
        first = min((op for op in found if op.part == value), key=lambda op: op.completed, default=None)
        if first is None:
            first = queue.unsure_of(value, NEVER if blocker is None else blocker.completed)
        if first is not None:
            queue.remove(Removal(first, wanted, wanted, moment))
            state = self.at, queue.mark
            if state not in self.seen:
                if len(self.seen) >= HELD:
                    self.seen.clear()
                self.seen.add(state)
                yield None
            queue.undo()
            if not queue.elements.has_within(first):
                return
        if blocker is None or first is None and not self.is_held(value):
            self.blame([wanted.id, *self.others(wanted)])
            return
        is_stuck = True
        for taker in queue.takers(blocker):
            is_stuck = False
            queue.remove(Removal(blocker, taker, wanted, moment))
            yield from self.ways(wanted)
            queue.undo()
        if is_stuck and first is None:
            self.blame([wanted.id, blocker.id])

    def is_held(self, value: int) -> bool:
        """Returns whether a value is in the queue, at any place."""
        queue = self.queue
        return queue.elements.held[value] > 0 or queue.used_unsure[value] < len(queue.unsure[value])

    def others(self, wanted: Op) -> List[int]:
        """The operations that have taken the wanted value."""
        return [removal.dequeue.id for removal in self.queue.removals[-100:] if removal.element.part == wanted.answer]

    def blame(self, ids: List[int]) -> None:
        """The operations that stop the search, if the search has come further than ever before."""
        if self.at > self.furthest:
            self.furthest = self.at
            lost = [removal for removal in self.queue.removals if not removal.dequeue.is_done]
            self.blamed = sorted({*ids, *(removal.element.id for removal in lost), *(removal.wanted.id for removal in lost)})

    def order(self) -> Order:
        """The order: each dequeue at its moment, and the enqueues in the order of the queue, each as early as possible."""
        queue = self.queue
        elements = [removal.element for removal in queue.removals]
        elements += queue.elements.left()
        placed: List[Tuple[int, int, Op]] = []
        moment = 0
        for number, op in enumerate(elements):
            moment = max(moment, op.invoked)
            placed.append((moment, number, op))
        placed += [(removal.moment, number, removal.dequeue) for number, removal in enumerate(queue.removals)]
        return Order(by_moments(placed))


def solve(ops: Sequence[Op], clock: Clock) -> Answer:
    return Search(ops, clock).run()
