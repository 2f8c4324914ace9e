"""The protocol of ZooKeeper (jute): as much of it as registers need."""
from __future__ import annotations

import struct
from typing import NamedTuple, Optional

from ..node import At
from .streams import Stream

CREATE, GET, SET = 1, 4, 5
NO_NODE, BAD_VERSION, NODE_EXISTS = -101, -103, -110
ANYBODY = struct.pack(">ii", 1, 31) + b"\0\0\0\5world\0\0\0\6anyone"  # one rule: everybody has all rights
SESSION = 60_000  # milliseconds; no data here depends on a session
STAT = struct.Struct(">qqqqiiiqiiq")


class ZooKeeperError(Exception):
    """An answer of the server that is an error: the server did not do the request."""

    def __init__(self, code: int) -> None:
        super().__init__(f"error {code} of ZooKeeper")
        self.code = code


class NoSession(ConnectionError):
    """The server gave no session, so nothing was sent to it yet. It is not part of a majority, or it is starting."""


class Found(NamedTuple):
    data: bytes
    version: int


class ZooKeeper:
    """A connection, and its session."""

    def __init__(self, at: At, timeout: float) -> None:
        self.stream = Stream(at, timeout)
        self._count = 0

    def get(self, path: str) -> Optional[Found]:
        """Returns the data of a node. None if there is no such node."""
        try:
            answer = self._asked(GET, text(path) + b"\0")
        except ZooKeeperError as fault:
            if fault.code == NO_NODE:
                return None
            raise
        length = struct.unpack_from(">i", answer)[0]
        end = 4 + max(0, length)
        return Found(answer[4:end], STAT.unpack_from(answer, end)[4])

    def set(self, path: str, data: bytes, version: int = -1) -> None:
        """Sets the data of a node: of any version, unless `version` is given."""
        self._asked(SET, text(path) + buffer(data) + struct.pack(">i", version))

    def create(self, path: str, data: bytes) -> None:
        self._asked(CREATE, text(path) + buffer(data) + ANYBODY + struct.pack(">i", 0))

    def put(self, path: str, data: bytes) -> None:
        """Sets the node, or creates it if it does not exist. If the last answer is an error, the change did not take place."""
        for is_new in (False, True, False):
            try:
                if is_new:
                    self.create(path, data)
                else:
                    self.set(path, data)
                return
            except ZooKeeperError as fault:
                if fault.code not in (NO_NODE, NODE_EXISTS):
                    raise
        raise ZooKeeperError(NO_NODE)

    def close(self) -> None:
        self.stream.close()

    def _asked(self, kind: int, body: bytes) -> bytes:
        with self.stream.request(self._connect):
            self._count += 1
            self._send(struct.pack(">ii", self._count, kind) + body)
            answer = self._frame()
            number, _, code = struct.unpack_from(">iqi", answer)
            if number != self._count:
                raise ConnectionError("an answer to something else")
        if code:
            raise ZooKeeperError(code)
        return answer[16:]

    def _connect(self) -> None:
        self.stream.open()
        try:
            self._send(struct.pack(">iqiq", 0, 0, SESSION, 0) + buffer(b"\0" * 16) + b"\0")
            if struct.unpack_from(">i", self._frame(), 4)[0] <= 0:
                raise NoSession("the session has run out")
        except OSError as fault:
            raise NoSession(str(fault)) from fault

    def _send(self, packet: bytes) -> None:
        self.stream.send(buffer(packet))

    def _frame(self) -> bytes:
        return self.stream.exactly(struct.unpack(">i", self.stream.exactly(4))[0])


def buffer(data: bytes) -> bytes:
    return struct.pack(">i", len(data)) + data


def text(path: str) -> bytes:
    return buffer(path.encode())
