"""The protocol of Redis (RESP)."""
from __future__ import annotations

from typing import Any, Union

from ..node import At
from .streams import Stream


class RedisError(Exception):
    """An answer of the server that is an error."""


class Redis:
    """A connection."""

    def __init__(self, at: At, timeout: float = 0.5) -> None:
        self.stream = Stream(at, timeout)

    def call(self, *words: Union[str, int]) -> Any:
        """The server's answer to a command: an integer, bytes, a list of them, or None."""
        with self.stream.request(self.stream.open):
            self.stream.send(request(*words))
            return self._answer()

    def _answer(self) -> Any:
        line = self.stream.line()
        kind, rest = line[:1], line[1:]
        if kind == b"-":
            raise RedisError(rest.decode(errors="replace"))
        if kind == b"+":
            return rest
        number = int(rest)
        if kind == b":" or number < 0:
            return number if kind == b":" else None
        if kind == b"*":
            return [self._answer() for _ in range(number)]
        return self.stream.exactly(number + 2)[:-2]

    def close(self) -> None:
        self.stream.close()


def request(*words: Union[str, int]) -> bytes:
    """A command: its words, each with its length."""
    parts = [str(word).encode() for word in words]
    return b"*%d\r\n" % len(parts) + b"".join(b"$%d\r\n%s\r\n" % (len(part), part) for part in parts)
