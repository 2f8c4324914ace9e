"""The messages of queues that the server accepted and that have not come. No event shows a loss, so this module counts them."""
from __future__ import annotations

import threading
from typing import TYPE_CHECKING, Dict, List, NamedTuple, Set

if TYPE_CHECKING:
    from ..long import LongObject


class Account:
    """The messages of one queue."""

    def __init__(self) -> None:
        self.missing: Set[int] = set()  # the messages that the server acknowledged and that have not come
        self.early: Set[int] = set()  # the messages that have come before the server acknowledged them
        self.may_have_come = 0  # how many of the missing messages timed-out dequeues may have taken

    @property
    def lost(self) -> int:
        return max(0, len(self.missing) - self.may_have_come)


class Missing(NamedTuple):
    """The missing values of one queue, and the place of its history."""

    name: str
    part: str
    key: int
    values: List[int]
    may_have_come: int


class Messages:
    """The messages of all queues. A queue whose messages have all come is forgotten when it is no longer judged."""

    def __init__(self) -> None:
        self._lock = threading.Lock()
        self._accounts: Dict[LongObject, Account] = {}

    def taken(self, queue: LongObject, value: int) -> None:
        with self._lock:
            account = self._account(queue)
            if value in account.early:
                account.early.remove(value)
            else:
                account.missing.add(value)

    def came(self, queue: LongObject, value: int) -> None:
        with self._lock:
            account = self._account(queue)
            if value in account.missing:
                account.missing.remove(value)
            else:
                account.early.add(value)

    def may_have_come(self, queue: LongObject) -> None:
        with self._lock:
            self._account(queue).may_have_come += 1

    def backlog(self, queue: LongObject) -> int:
        with self._lock:
            account = self._accounts.get(queue)
            return len(account.missing) if account is not None else 0

    @property
    def missing(self) -> List[LongObject]:
        """The queues of which messages are missing."""
        with self._lock:
            return [queue for queue, account in self._accounts.items() if account.lost]

    @property
    def listed(self) -> List[Missing]:
        """The missing values."""
        with self._lock:
            return [Missing(queue.name, queue.part.name, queue.key, sorted(account.missing), account.may_have_come)
                    for queue, account in self._accounts.items() if account.lost]

    @property
    def lost(self) -> int:
        with self._lock:
            return sum(account.lost for account in self._accounts.values())

    def _account(self, queue: LongObject) -> Account:
        if queue not in self._accounts:
            for other in [one for one, account in self._accounts.items() if one.is_over and not account.missing]:
                del self._accounts[other]
            self._accounts[queue] = Account()
        return self._accounts[queue]
