"""The shape of a row: the meaning of each of its fields. Rows with the same names have one shape, which is found only once.

A row may have objects that hold its fields, such as Porcupine's Input or the attributes of a span. Their members get names with dots, such
as Input.Key. The last part of the name gives the meaning.
"""
from __future__ import annotations

from typing import Any, Dict, List, NamedTuple, Optional, Sequence, Tuple

from . import Refused
from .cells import spelled
from .mapping import Mapping
from .vocabulary import ARGUMENTS, CONTAINERS, HARMLESS, MEANINGS, PARTS, RUNS, Slot, plain, slot_of

Fields = Dict[str, Any]
SAYS = {"client", "f", "key", "value", "answer", "call", "return", "id"}  # a row without a field of these meanings has no operation
DEEPEST = 4  # objects are opened to this depth
ASKS = ("f", "type", "key")  # an object with one of these is not a value: it has the operation
ANSWERED = ("value", "answer", "ok", "failed", "unknown", "error", "outcome", "found")  # the meanings that the members of an answer may have
SHOWN = 4  # a refusal shows at most this many fields with their values


class Use(NamedTuple):
    """A field that means something."""

    name: str
    slot: Slot


class Shape:
    """The meanings of the fields of rows with the same names."""

    def __init__(self, names: Sequence[str], mapping: Mapping) -> None:
        self.names = names
        self.count = 0  # the number of rows of this shape
        self.uses: Dict[str, List[Use]] = {}
        self.unknown: List[str] = []  # names without a known meaning, and names of a key other than the key that the user names
        self.passed: List[str] = []  # names with a known meaning for which the user names other fields
        mapped = {mapping.fields[plain(name)].meaning for name in names if plain(name) in mapping.fields}
        for name in names:
            slot = slot_in(name, mapping)
            if slot is not None and (slot.meaning not in mapped or plain(name) in mapping.fields):
                self.uses.setdefault(slot.meaning, []).append(Use(name, slot))
            elif plain(name) not in mapping.ignored:
                is_other_key = slot is not None and slot.meaning == "key"  # another key field may be a part of the key
                (self.unknown if slot is None or is_other_key else self.passed).append(name)
        self.is_bare = not SAYS & set(self.uses)
        self.key_parts = sorted(use.name for use in self.uses.get("key", ())) if "key" in mapped else []  # if the user names them
        for uses in self.uses.values():
            uses.sort(key=lambda use: use.slot.rank)
        # Fields that may hold an object whose members are read as fields.
        kept = {use.name for meaning in ("key", "old", "new", "error") for use in self.uses.get(meaning, ())}
        self.objects = [name for name in names if name not in kept and plain(name) not in mapping.ignored]


def slot_in(name: str, mapping: Mapping) -> Optional[Slot]:
    """The meaning of a field, by its whole name, or by its last part within an object."""
    slot = mapping.fields.get(plain(name)) if mapping.fields else None
    if slot is not None or plain(name) in mapping.ignored:
        return slot
    outer, dot, inner = name.rpartition("\0")
    if not dot:
        slot = slot_of(name)
        return slot if slot is not None else Slot("value", None, 99) if plain(name) in ARGUMENTS else None
    return _member(plain(outer.rpartition("\0")[2]), slot_of(inner))


def _member(outer: str, slot: Optional[Slot]) -> Optional[Slot]:
    """The meaning of a member of an object."""
    of_outer = slot_of(outer)
    if of_outer is not None and of_outer.meaning == "answer":
        return slot._replace(meaning="answer") if slot is not None and slot.meaning in ("value", "answer") else (
            slot if slot is not None and slot.meaning in ANSWERED else None)
    if of_outer is not None and of_outer.meaning == "outcome":
        return slot if slot is not None and slot.meaning in ("outcome", "error") else None
    if outer in CONTAINERS or of_outer is not None and of_outer.meaning in ("value", "f"):
        return slot
    return None


class Shapes:
    """The shapes of the rows so far."""

    def __init__(self, mapping: Mapping) -> None:
        self._mapping = mapping
        self._shapes: Dict[Tuple[str, ...], Shape] = {}
        self._said: Dict[str, List[Any]] = {}  # for each field without a meaning: its first two values
        self._first: Dict[str, int] = {}  # for each such field: its first line

    def of(self, line: int, fields: Fields) -> "Tuple[Shape, Fields]":
        """The shape of a row, and its fields. Objects are replaced by their members."""
        shape = self.of_names(tuple(fields))
        for name in shape.objects:
            if type(fields[name]) is dict:
                opened = self._opened(line, fields)
                if opened is not fields:
                    return self.of(line, opened)
                break
        if shape.is_bare:
            return shape, fields
        shape.count += 1
        for name in shape.unknown:
            self.unused(line, name, fields[name])
        return shape, fields

    def of_names(self, names: Tuple[str, ...]) -> Shape:
        """The shape of rows with these names."""
        shape = self._shapes.get(names)
        if shape is None:
            shape = self._shapes[names] = Shape(names, self._mapping)
        return shape

    def unused(self, line: int, name: str, field: Any) -> None:
        """Records a field without a meaning."""
        said = self._said.get(name)
        if said is None:
            self._said[name], self._first[name] = [field], line
        elif len(said) == 1 and said[0] != field:
            said.append(field)

    def _opened(self, line: int, fields: Fields) -> Fields:
        """The fields, with the members of objects that are not values."""
        opened: Fields = {}
        has_some = False
        for name, field in fields.items():
            if type(field) is dict and name.count("\0") < DEEPEST and self._is_open(line, name, field):
                has_some = True
                opened.update((f"{name}\0{member}", value) for member, value in field.items())
            else:
                opened[name] = field
        return opened if has_some else fields

    def _is_open(self, line: int, name: str, field: Fields) -> bool:
        """Whether an object is not a value, so that its members are fields."""
        slot = slot_in(name, self._mapping)
        whole = plain(name)
        if any(mapped.startswith(whole) and mapped != whole for mapped in (*self._mapping.fields, *self._mapping.ignored)):
            return True
        if whole in self._mapping.fields or whole in self._mapping.ignored:
            return False
        if slot is None or plain(name.rpartition("\0")[2]) in CONTAINERS or slot.meaning in ("outcome", "time"):
            return True
        if slot.meaning in ("value", "f", "type"):
            return any(inner is not None and inner.meaning in ASKS for inner in map(slot_of, field))
        return slot.meaning == "answer" and self._is_open_answer(line, name, field)

    def _is_open_answer(self, line: int, name: str, field: Fields) -> bool:
        """Whether the members of an answer give the value and the outcome of the operation. An answer without such members is a value."""
        slots = {member: slot_of(member) for member in field}
        others = [member for member, slot in slots.items() if (slot is None or slot.meaning not in ANSWERED) and not is_harmless(member)]
        if len(others) == len(field) > 0:
            return False
        if others:
            raise Refused(f"line {line}: {shown(name)} is {short(field)}: is it the answer, or is a member of it? say "
                          f"--map {shown(name)}=answer, or --ignore {shown(name)}.{others[0]}")
        return True

    # --- Fields that mean nothing ---

    def names(self) -> List[str]:
        """All fields that were seen."""
        return list(dict.fromkeys(name for names in self._shapes for name in names))

    def close(self) -> List[str]:
        """Records the unused fields. Raises Refused if one of them may matter for the history."""
        total = sum(shape.count for shape in self._shapes.values())
        passed = dict.fromkeys(name for shape in self._shapes.values() for name in shape.passed if not shape.is_bare)
        counts = {name: sum(shape.count for shape in self._shapes.values() if name in shape.names) for name in [*self._said, *passed]}
        doubtful = [name for name, said in self._said.items() if not is_harmless(name) and (len(said) > 1 or counts[name] < total)
                    and not (counts[name] < total and said == [None])]
        if doubtful:
            listed = "; ".join(f"{shown(name)}: {', '.join(map(short, self._said[name]))} (line {self._first[name]})" for name in doubtful[:SHOWN])
            more = f"; and {len(doubtful) - SHOWN} more" if len(doubtful) > SHOWN else ""
            first = shown(doubtful[0])
            raise Refused(f"fields that are not known, and may say something of the history: {listed}{more}. Say what each one is, for example by --map "
                          f"{first}=key, or that it is nothing, by --ignore {first}. {self._guessed(doubtful)}{allowed()}")
        return [f"{shown(name)} ({counts[name]})" for name in counts]

    def _guessed(self, doubtful: List[str]) -> str:
        """Guesses whether the first of these fields distinguishes runs or objects."""
        key = next((shown(shape.uses["key"][0].name) for shape in self._shapes.values() if "key" in shape.uses), None)
        for name in doubtful:
            if _last(name) in RUNS:
                return f"If {shown(name)} tells runs apart, judge each by itself. "
            if _last(name) in PARTS and key is not None:
                return f"If {shown(name)} is a part of the key, say --map {shown(name)}=key --map {key}=key. "
        return ""


def is_harmless(name: str) -> bool:
    return _last(name) in HARMLESS


def _last(name: str) -> str:
    return plain(name.rpartition("\0")[2])


def shown(name: str) -> str:
    """A field's name as a user writes it."""
    return name.replace("\0", ".") or "''"


def allowed() -> str:
    return f"Names are {', '.join(MEANINGS)}, and others of docs/FORMATS.md"


def short(field: Any) -> str:
    text = spelled(field)
    return text if len(text) <= 24 else text[:21] + "..."
