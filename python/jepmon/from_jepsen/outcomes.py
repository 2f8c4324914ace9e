"""The type of an :ok that contradicts itself: a lock, a cas, a write or a dequeue with the answer false, or an :ok with an :error.

Its :type comes from the test, and its answer or error comes from the store. One of the two is wrong. By default a false answer decides, and
an error does not. The notes name both guesses, and --outcome settles them.
"""
from __future__ import annotations

from typing import Dict, Mapping, Tuple

from ..forms.account import OUTCOME, Account

FALSE, ERROR = "false", "error"
DEFINITE = (":cas", ":acquire", ":dequeue")  # false says that these did not take place; any other operation may have taken place


class Outcomes:
    """Decides the types of contradictory completions, and counts them."""

    def __init__(self, said: Mapping[str, str]) -> None:
        self._said = said  # the types that --outcome gives to "false" and "error"
        self._counts: Dict[Tuple[str, str, str], Tuple[int, int]] = {}  # for each contradiction, operation and type: their number, and the first line

    def of_false(self, line: int, name: str) -> str:
        """The type of an :ok that is answered by false."""
        kind = f":{self._said[FALSE]}" if FALSE in self._said else ":fail" if name in DEFINITE else ":info"
        return self._counted(FALSE, line, name, kind)

    def of_error(self, line: int, name: str) -> str:
        """The type of an :ok with an :error."""
        return self._counted(ERROR, line, name, f":{self._said.get(ERROR, 'ok')}")

    def _counted(self, what: str, line: int, name: str, kind: str) -> str:
        count, first = self._counts.get((what, name, kind), (0, line))
        self._counts[what, name, kind] = count + 1, first
        return kind

    def account(self, account: Account) -> None:
        """Records what was assumed."""
        for (what, name, kind), (count, line) in self._counts.items():
            if what not in self._said:
                said = "answered by false" if what == FALSE else "with an :error"
                account.guess(OUTCOME, f"{count} :ok of {name} {said}, first in line {line}, taken as {kind}", f"--outcome {what}={kind[1:]}")
