"""The lean ends of a register, computed by their definition alone (`crates/linspec/specs/LeanEnds.antt`): slow, and short enough to be compared
with it line by line. The tests compare the program's wide registers with it."""
from __future__ import annotations

from typing import Dict, FrozenSet, Iterator, List, NamedTuple, Optional, Sequence, Tuple, TypeVar, Union

Ids = FrozenSet[int]
Part = Union[None, int, Tuple[int, int]]  # of a read, a write and a cas
Row = Tuple[int, str, str, Part]  # operation, type, name, part or answer


class LeanEnd(NamedTuple):
    """A possible outcome of the operations that some answer needs."""

    state: Optional[int]
    needed: Ids  # open and crashed writes that took place
    door: Ids  # operations that may still take place just before the last write
    finds: FrozenSet[Tuple[int, int]]  # an open read and a value that it may find


START = LeanEnd(None, frozenset(), frozenset(), frozenset())


class Register:
    """One register's history: its lean ends, and `alive`, `dead I` or `over I`."""

    def __init__(self, budget: int) -> None:
        self.budget, self.status = budget, "alive"
        self.ends = [START]
        self.opened: Dict[int, Tuple[str, Part]] = {}
        self.changes: Dict[int, Part] = {}  # open and crashed operations that are no reads, with their parts
        self.reads: Ids = frozenset()  # open ones

    def invoke(self, op: int, name: str, value: Part) -> None:
        if self.status != "alive":
            return
        self.opened[op] = name, value
        if name != "read":
            self.changes[op] = value
            return
        self.reads |= {op}
        self.leave([end._replace(finds=end.finds | {(op, end.state)}) if end.state is not None else end for end in self.ends])

    def complete(self, index: int, op: int, kind: str, answer: Optional[int]) -> None:
        if self.status != "alive":
            return
        made = self.made(op, kind, answer)
        if made is None:
            self.status = f"over {index}"
            return
        if self.opened.pop(op)[0] == "read":
            self.reads -= {op}
        elif kind != "info":
            del self.changes[op]
        self.leave(made)
        if not self.ends:
            self.status = f"dead {index}"

    def made(self, op: int, kind: str, answer: Optional[int]) -> Optional[List[LeanEnd]]:
        """The ends that the completion makes of all; None if the budget is too small for that."""
        if kind == "ok" and len(self.ends) > self.budget:
            return None
        return [end for before in self.ends for end in self.after(before, op, kind, answer)]

    def after(self, end: LeanEnd, op: int, kind: str, answer: Optional[int]) -> Iterator[LeanEnd]:
        """The ends that the completion makes of one."""
        name, _ = self.opened[op]
        if kind == "info":
            yield without(end, op) if name == "read" else end
        elif kind == "fail":
            if op not in end.needed:
                yield without(end, op)
        else:
            yield from self.after_ok(end, op, name, answer)

    def after_ok(self, end: LeanEnd, op: int, name: str, answer: Optional[int]) -> Iterator[LeanEnd]:
        if name == "write":
            yield from [without(end, op)] if op in end.needed else (without(each, op) for each in self.put(end, op, op in end.door))
        elif answer is None or (op, answer) in end.finds:
            yield without(end, op)
        else:
            for write in [each for each in self.writes_of(answer) if each not in end.needed]:
                yield from (without(each, op) for each in self.put(end, write, op in end.door and write in end.door))

    def put(self, end: LeanEnd, write: int, is_before: bool) -> Iterator[LeanEnd]:
        """The write takes place behind all others, and if it may, just before the last one."""
        value, needed = self.written(write), end.needed | {write}
        yield LeanEnd(value, needed, (self.reads | frozenset(self.changes)) - needed, self.found(end, value))
        if is_before:
            yield self.before(end, write)

    def before(self, end: LeanEnd, write: int) -> LeanEnd:
        """The write takes place just before the last one."""
        value = self.written(write)
        return LeanEnd(end.state, end.needed | {write}, end.door - {write}, end.finds | {(read, value) for read in self.reads & end.door})

    def found(self, end: LeanEnd, value: int) -> "FrozenSet[Tuple[int, int]]":
        return end.finds | {(read, value) for read in self.reads}

    def writes_of(self, value: Optional[int]) -> Iterator[int]:
        return (op for op, part in self.changes.items() if isinstance(part, int) and part == value)

    def written(self, write: int) -> int:
        value = self.changes[write]
        assert isinstance(value, int)
        return value

    def leave(self, made: List[LeanEnd]) -> None:
        """Keeps the ends that are at most no other one."""
        left: List[LeanEnd] = []
        for end in dict.fromkeys(made):
            if not any(self.is_at_most(end, other) for other in left):
                left = [other for other in left if not self.is_at_most(other, end)] + [end]
        self.ends = left

    def is_at_most(self, end: LeanEnd, other: LeanEnd) -> bool:
        opened = frozenset(self.opened)
        return (end.state == other.state and other.needed <= end.needed and end.needed & opened <= other.needed
                and end.door <= other.door and end.finds <= other.finds)


AnyRegister = TypeVar("AnyRegister", bound=Register)


def judged(register: AnyRegister, rows: Sequence[Row]) -> AnyRegister:
    """The register after these events."""
    for index, (op, kind, name, value) in enumerate(rows):
        if kind == "invoke":
            register.invoke(op, name, value)
        else:
            register.complete(index, op, kind, value if kind == "ok" and isinstance(value, int) else None)
    return register


def without(end: LeanEnd, op: int) -> LeanEnd:
    return LeanEnd(end.state, end.needed - {op}, end.door - {op}, frozenset(found for found in end.finds if found[0] != op))
