"""The errors with which from-jepsen refuses a history."""
from __future__ import annotations

from typing import NoReturn

from ..forms import Beyond as TooMany
from ..forms import Refused as Refusal

__all__ = ["NoKey", "OutOfOrder", "Refusal", "TooMany", "Unpaired", "refuse"]


class NoKey(Refusal):
    """A value has no key, and the user named none."""


class OutOfOrder(Refusal):
    """The events are not in the order in which they took place."""


class Unpaired(Refusal):
    """An event cannot follow the events before it: the file may be in another order."""


def refuse(line: int, reason: str) -> NoReturn:
    raise Refusal(f"line {line}: {reason}")
