"""Keys and values of a live test in the form for jepmon: integers, and ABSENT for the answer of a missing key."""
from __future__ import annotations

from typing import Any, Iterable, NamedTuple, Tuple, Union

from ..history.kinds import ABSENT, KEYS, VALUES

Value = Union[None, int, Iterable[int]]


def key_of(key: Any) -> int:
    """Returns the key. Raises a ValueError if it is not a key."""
    if isinstance(key, bool) or not isinstance(key, int) or not KEYS.start <= key < KEYS.stop:
        raise ValueError(f"a key is an integer from 0 to {KEYS.stop - 1}, not {key!r}; Monitor.number gives one")
    return key


def told(value: Any) -> Any:
    """Returns the recorded value: ABSENT if the key is missing (None)."""
    return ABSENT if value is None else value


class Missing(NamedTuple):
    """The value of a register before its first operation, and the answer that, in addition to None, means a missing key."""

    initial: int = ABSENT
    answers: Tuple[Any, ...] = ()  # empty, or one answer of any type

    def seen(self, value: Any) -> Any:
        """Returns the answer, or None if it means a missing key. False and 0 are different answers; 1 and 1.0 are different too."""
        return None if any(type(value) is type(answer) and value == answer for answer in self.answers) else value


def integer(value: Any) -> str:
    """The text of an integer of 64 bits."""
    if isinstance(value, bool) or not isinstance(value, int):
        raise TypeError(f"jepmon takes integers, not {value!r}; Monitor.number gives one")
    if not VALUES.start <= value < VALUES.stop:
        raise ValueError(f"jepmon takes integers of 64 bits, not {value}; Monitor.number gives one")
    return str(value)


def members(value: Any) -> str:
    """The text of a set of integers; None stands for the empty one."""
    return "#{" + " ".join(sorted({integer(member) for member in value or ()})) + "}"


def readable(line: str) -> str:
    """Returns a line of a history in a form for people."""
    return line.replace(str(ABSENT), "ABSENT")


NONE: Any = object()  # only the answer None means a missing key


def missing(initial: Any, absent: Any) -> Missing:
    """The values of a monitor's options."""
    answers = () if absent is NONE else (absent,)
    return Missing(int(integer(told(Missing(answers=answers).seen(initial)))), answers)
