"""Operations that are open when their client invokes its next one: they never returned, and may take place at any later time.

The reader guesses that a client does one operation after another. If a completion does not fit the client's last invocation, several
operations were open.
"""
from __future__ import annotations

from typing import Any, Set

from . import Refused
from .account import CLIENT, Account
from .meaning import ANSWERED, MISSING, Told
from .shapes import short


class Unfinished:
    """The operations that never returned."""

    def __init__(self, account: Account, is_stated: bool) -> None:
        self._account, self._is_stated = account, is_stated
        self.clients: Set[Any] = set()  # the clients that have left an operation open
        self._count = self._first = 0

    def leave(self, begun: Told, told: Told) -> None:
        """Leaves an operation open, since its client invokes another one."""
        if begun.fields == told.fields:
            raise Refused(f"line {told.line}: this row is that of line {begun.line} in each field: does the file have some lines twice?")
        self.clients.add(told.client)
        self._count += 1
        self._first = self._first or begun.line

    def test(self, begun: Told, end: Told) -> None:
        """Tests that a completion fits the last invocation of its client, if this client has left an operation open."""
        if end.client not in self.clients:
            return
        fits = ((end.name, begun.name, None), (end.key, begun.key, MISSING),
                (MISSING if begun.name in ANSWERED or end.value is None else end.value, begun.value, MISSING))
        for of_end, of_begun, absent in fits:
            if of_end is not absent and of_begun is not absent and of_end != of_begun:
                raise Refused(f"line {end.line}: client {short(end.client)} completes {short(of_end)}, but its last invocation is {short(of_begun)}, in line "
                              f"{begun.line}: are several operations of a client open at once? Let rows be operations with a call and a return")

    def close(self) -> None:
        """Records the guess in the account."""
        if self._count and not self._is_stated:
            self._account.guess(CLIENT, f"operations that are open when their client invokes another one never returned: {self._count}, first in "
                                f"line {self._first}", "--unfinished info")
