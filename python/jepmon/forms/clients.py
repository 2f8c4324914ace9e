"""The clients of a history in several files. Clients with the same name in two files are two clients, or one client."""
from __future__ import annotations

from typing import Any, Dict, Optional, Set

from .account import CLIENT, Account
from .files import Several, Source
from .mapping import ONE

SHOWN = 3  # clients that are named


class Clients:
    """Names clients by their files."""

    def __init__(self, source: Optional[Source], said: Optional[str]) -> None:
        self._source = source if isinstance(source, Several) else None
        self._said = said
        self._files: Dict[Any, Set[str]] = {}  # the files of each client

    @property
    def are_of_several_files(self) -> bool:
        return self._source is not None

    def named(self, client: Any, line: int) -> Any:
        """Returns the client of the event in this line."""
        if self._source is None or self._said == ONE:
            return client
        file = self._source.part_of(line)
        self._files.setdefault(client, set()).add(file)
        return f"{client} of {file}"

    def close(self, account: Account) -> None:
        """Records in the account the clients that may be one client."""
        twice = [str(client) for client, files in self._files.items() if len(files) > 1]
        if twice and self._said is None:
            shown = ", ".join(twice[:SHOWN]) + (", .." if len(twice) > SHOWN else "")
            account.guess(CLIENT, f"{shown}: in several files, and in each another client", "--clients apart")
