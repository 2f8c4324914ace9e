"""A connection that is made when it is needed, and made again after a fault, so that a late answer never counts as the answer to the next
request. It never retries a request, so a ConnectionRefusedError says that nothing was sent."""
from __future__ import annotations

import contextlib
import socket
import time
from typing import Callable, Iterator, Optional

from ..node import At


class Stream:
    def __init__(self, at: At, seconds: float) -> None:
        self._at, self._seconds = at, seconds
        self._socket: Optional[socket.socket] = None
        self._got = b""
        self._end = 0.0

    @property
    def is_open(self) -> bool:
        return self._socket is not None

    def open(self) -> None:
        """Connects. Starts the time of the next operation."""
        self.close()
        self.begin()
        self._socket = socket.create_connection(self._at, self._seconds)
        self._socket.setsockopt(socket.IPPROTO_TCP, socket.TCP_NODELAY, 1)

    @contextlib.contextmanager
    def request(self, connect: Callable[[], None]) -> Iterator[None]:
        """The block is one request. Connects first if needed, and starts the time of the request. A fault closes the connection."""
        try:
            if not self.is_open:
                connect()
            self.begin()
            yield
        except OSError:
            self.close()
            raise

    def begin(self) -> None:
        """Starts the time of one operation, with everything that it sends and waits for."""
        self._end = time.monotonic() + self._seconds

    def send(self, data: bytes) -> None:
        self._ready().sendall(data)

    def line(self) -> bytes:
        """Returns the bytes up to the next line feed, without the end of the line."""
        while b"\n" not in self._got:
            self._more()
        line, _, self._got = self._got.partition(b"\n")
        return line.rstrip(b"\r")

    def exactly(self, length: int) -> bytes:
        while len(self._got) < length:
            self._more()
        data, self._got = self._got[:length], self._got[length:]
        return data

    def _more(self) -> None:
        data = self._ready().recv(1 << 16)
        if not data:
            raise ConnectionError("the server has closed the connection")
        self._got += data

    def _ready(self) -> socket.socket:
        left = self._end - time.monotonic()
        if self._socket is None or left <= 0:
            raise TimeoutError("no answer in time")
        self._socket.settimeout(left)
        return self._socket

    def close(self) -> None:
        self._got = b""
        if self._socket is not None:
            self._socket.close()
            self._socket = None
