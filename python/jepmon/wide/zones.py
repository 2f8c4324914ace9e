"""Decides registers with unique values: exactly one operation writes each value. The operations of a value are together in an order. A cas
joins the operations of two values into one group, which has its own order. Two moments of a group matter: the first return and the last
invocation among its operations. If the first return comes first, the group fills the time between the two moments (it is wide). Otherwise
the whole group may take place at any moment between them (it is narrow). There is an order of all groups if and only if no two wide groups
overlap and no narrow group is within a wide one (Gibbons and Korach, 1997). The cost is that of a sort."""
from __future__ import annotations

import bisect
import collections
from typing import Dict, Iterator, List, NamedTuple, Optional, Sequence, Set, Tuple, Union, cast

from .operation import Answer, Clock, Conflict, Op, Order

Layers = List[List[Op]]  # an operation that writes a value, its readers, the operation that writes the next value, its readers, and so on


class NotUnique(Exception):
    """Two operations write the same value."""


class Group(NamedTuple):
    """The operations of a write, and of each cas that follows: the first return, the last invocation, and the operations of these two
    events."""

    first: int
    last: int
    returns: Op
    invokes: Op
    layers: Layers

    @property
    def is_wide(self) -> bool:
        return self.first < self.last


def brings(op: Op) -> Optional[int]:
    """The value that an operation writes to a register."""
    if op.name == "write":
        return cast(int, op.part)
    old, new = cast(Tuple[int, int], op.part) if op.name == "cas" else (0, 0)
    return new if old != new else None


def needs(op: Op) -> Optional[int]:
    """The value that the register must hold for the operation."""
    if op.name == "cas":
        return cast(Tuple[int, int], op.part)[0]
    return cast(int, op.answer) if op.name == "read" else None


def needed(ops: Sequence[Op]) -> List[Op]:
    """The operations without those that have not returned and whose value no returned operation needs, directly or through others."""
    bringers: Dict[int, List[Op]] = collections.defaultdict(list)
    wanted: List[int] = []
    for op in ops:
        value, need = brings(op), needs(op)
        if value is not None and not op.is_done:
            bringers[value].append(op)
        if need is not None and op.is_done:
            wanted.append(need)
    known: Set[int] = set()
    kept: Set[int] = set()
    while wanted:
        value = wanted.pop()
        if value not in known:
            known.add(value)
            for op in bringers.get(value, ()):
                kept.add(op.id)
                need = needs(op)
                wanted += [need] if need is not None else []
    return [op for op in ops if op.is_done or op.id in kept]


def solve(ops: Sequence[Op], clock: Clock) -> Answer:
    """Runs the search. Raises NotUnique if two operations write one value."""
    bringer: Dict[int, Op] = {}
    readers: Dict[int, List[Op]] = collections.defaultdict(list)
    following: Dict[int, Op] = {}  # for each value: the cas that compares with it
    doubled: Optional[Conflict] = None
    for op in ops:
        value, need = brings(op), needs(op)
        if value is None:
            readers[cast(int, need)].append(op)
            continue
        if value in bringer:
            raise NotUnique
        bringer[value] = op
        if need is not None:
            if need in following:
                doubled = Conflict([following[need].id, op.id])
            following[need] = op
    if doubled is not None:
        return doubled
    for value, op in [*((value, found[0]) for value, found in readers.items()), *following.items()]:
        if value not in bringer:
            return Conflict([op.id])
    groups: List[Group] = []
    for op in ops:
        if op.name == "write":
            clock.step()
            group = group_of(list(layers_of(op, readers, following)))
            if isinstance(group, Conflict):
                return group
            groups.append(group)
    return of_cycle(ops, groups) or of_two(groups) or Order([op.id for group in in_order(groups) for layer in group.layers for op in layer])


def layers_of(write: Op, readers: Dict[int, List[Op]], following: Dict[int, Op]) -> Iterator[List[Op]]:
    op: Optional[Op] = write
    while op is not None:
        yield [op]
        value = cast(int, brings(op))
        yield sorted(readers.get(value, ()), key=lambda reader: reader.invoked)
        op = following.get(value)


def group_of(layers: Layers) -> Union[Group, Conflict]:
    """The group of a write. Returns a Conflict if an operation returns before the invocation of another one that must come before it."""
    returns = invokes = layers[0][0]
    for layer in layers:
        for op in layer:
            if op.completed < invokes.invoked:
                return Conflict([op.id, invokes.id])
            returns = min(returns, op, key=lambda each: each.completed)
        invokes = max([invokes, *layer], key=lambda each: each.invoked)
    return Group(returns.completed, invokes.invoked, returns, invokes, layers)


def of_cycle(ops: Sequence[Op], groups: Sequence[Group]) -> Optional[Conflict]:
    """Describes a cas that follows no write."""
    met = {op.id for group in groups for layer in group.layers for op in layer}
    lonely = [op.id for op in ops if op.id not in met and op.is_done]
    return Conflict(lonely[:1]) if lonely else None


def of_two(groups: Sequence[Group]) -> Optional[Conflict]:
    """Describes two groups that can't be put in an order."""
    wide = sorted((group for group in groups if group.is_wide), key=lambda group: group.first)
    for one, other in zip(wide, wide[1:]):
        if other.first < one.last:
            return blamed(one, other)
    firsts = [group.first for group in wide]
    for group in groups:
        if not group.is_wide:
            at = bisect.bisect_right(firsts, group.last) - 1
            if at >= 0 and group.first < wide[at].last:
                return blamed(wide[at], group)
    return None


def blamed(one: Group, other: Group) -> Conflict:
    return Conflict(sorted({one.returns.id, one.invokes.id, other.returns.id, other.invokes.id}))


def in_order(groups: Sequence[Group]) -> List[Group]:
    """The order of the groups: a wide group at its first return, and a narrow group at its last invocation, or right behind the wide group
    that contains this moment."""
    wide = sorted((group for group in groups if group.is_wide), key=lambda group: group.first)
    firsts = [group.first for group in wide]

    def place(group: Group) -> Tuple[int, int, int, int]:
        if group.is_wide:
            return group.first, 0, group.last, group.first
        around = bisect.bisect_right(firsts, group.last) - 1
        if around >= 0 and group.last < wide[around].last:
            return wide[around].first, 2, group.last, group.first
        return group.last, 1, group.last, group.first

    return sorted(groups, key=place)
