"""The protocol of PostgreSQL, version 3: simple queries of text, as a user who is trusted."""
from __future__ import annotations

import struct
from typing import List, NamedTuple, Optional, Tuple

from ..node import At
from .streams import Stream


class SqlError(Exception):
    """An answer of the server that is an error. `state` is its SQLSTATE, five characters."""

    def __init__(self, state: str, text: str) -> None:
        super().__init__(state, text)
        self.state, self.text = state, text

    def __str__(self) -> str:
        return f"{self.state} {self.text}"


class Answer(NamedTuple):
    rows: List[Tuple[Optional[str], ...]]
    changed: int  # rows that were changed or selected


class Postgres:
    """A connection. `connected` is the number of times that it was made."""

    def __init__(self, at: At, user: str, timeout: float) -> None:
        self.stream, self.user, self.connected = Stream(at, timeout), user, 0

    def query(self, text: str) -> Answer:
        """The answer of the last of these statements. All of them are one transaction, unless the text begins a transaction itself."""
        with self.stream.request(self._connect):
            self._send(b"Q", text.encode() + b"\0")
            return self._answer()

    def _connect(self) -> None:
        """Connects, and waits until the server is ready. A server that is starting or ending refuses (57P03) before anything was sent, like
        a refused connection."""
        self.stream.open()
        words = f"user\0{self.user}\0database\0postgres\0\0".encode()
        self.stream.send(struct.pack("!ii", 8 + len(words), 196608) + words)
        try:
            self._answer()
        except OSError as fault:  # no request was sent yet
            raise ConnectionRefusedError(str(fault)) from fault
        self.connected += 1

    def _send(self, kind: bytes, data: bytes) -> None:
        self.stream.send(kind + struct.pack("!i", len(data) + 4) + data)

    def _answer(self) -> Answer:
        """The answer, up to the next message that says that the server is ready."""
        rows: List[Tuple[Optional[str], ...]] = []
        count, error = 0, None
        while True:
            kind = self.stream.exactly(1)
            data = self.stream.exactly(struct.unpack("!i", self.stream.exactly(4))[0] - 4)
            if kind == b"T":
                rows = []
            elif kind == b"D":
                rows.append(values(data))
            elif kind == b"C":
                last = data.rstrip(b"\0").split(b" ")[-1]
                count = int(last) if last.isdigit() else 0
            elif kind == b"E":
                error = error_of(data)
                if error.state.startswith(("57P", "08", "53", "28")):  # the server ends the session: nothing follows
                    raise ConnectionError(str(error))
            elif kind == b"R" and data[:4] != b"\0\0\0\0":
                raise ConnectionError("the server wants a password")
            elif kind == b"Z":
                if error is not None:
                    raise error
                return Answer(rows, count)

    def close(self) -> None:
        self.stream.close()


def values(data: bytes) -> Tuple[Optional[str], ...]:
    """The fields of a row."""
    found: List[Optional[str]] = []
    place = 2
    for _ in range(struct.unpack("!h", data[:2])[0]):
        length = struct.unpack("!i", data[place:place + 4])[0]
        place += 4
        found.append(None if length < 0 else data[place:place + length].decode())
        place += max(length, 0)
    return tuple(found)


def error_of(data: bytes) -> SqlError:
    fields = {field[:1]: field[1:].decode(errors="replace") for field in data.split(b"\0") if field}
    return SqlError(fields.get(b"C", ""), fields.get(b"M", ""))
