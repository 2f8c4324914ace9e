"""The protocol of RabbitMQ, AMQP 0-9-1: a connection with one channel, which publishes with confirms and gets one message at a time."""
from __future__ import annotations

import struct
from typing import NamedTuple, Optional, Set, Tuple

from ..node import At
from .streams import Stream

METHOD, HEADER, BODY, HEARTBEAT = 1, 2, 3, 8
END = b"\xce"
START, START_OK, TUNE, TUNE_OK, OPEN, OPEN_OK, CLOSE = ((10, number) for number in (10, 11, 30, 31, 40, 41, 50))
CHANNEL_OPEN, CHANNEL_OPEN_OK, CHANNEL_CLOSE = (20, 10), (20, 11), (20, 40)
DECLARE, DECLARE_OK = (50, 10), (50, 11)
PUBLISH, GET, GET_OK, GET_EMPTY, ACK = ((60, number) for number in (40, 70, 71, 72, 80))
SELECT, SELECT_OK = (85, 10), (85, 11)
DURABLE, PERSISTENT, HAS_DELIVERY_MODE = 2, 2, 0x1000
WAIT = 0  # no flag is set, so the broker answers
CLASSIC, QUORUM = "classic", "quorum"  # kinds of queues: on one node, and replicated by Raft

Method = Tuple[int, int]


class BrokerError(ConnectionError):
    """The broker has refused, or ended the connection or its channel."""


class Message(NamedTuple):
    tag: int
    body: bytes


class Amqp:
    """A connection, made when it is needed. `publish` and `get` may fail half-way. All steps before them, such as the declaration of a
    queue, have not sent any part of a message, so they raise a ConnectionRefusedError. `kind` is the kind of the queues that it
    declares."""

    def __init__(self, at: At, timeout: float, kind: str = CLASSIC) -> None:
        self.stream = Stream(at, timeout)
        self._kind = short("x-queue-type") + b"S" + long(kind)
        self._declared: Set[str] = set()

    def publish(self, queue: str, body: bytes, confirmed: bool = True, durable: bool = True) -> None:
        """Sends a message, and waits until the broker has confirmed it. With `durable` this means that the message is on the disk."""
        self.declare(queue, durable)
        try:
            self._send(METHOD, method(PUBLISH, struct.pack("!H", 0), short(""), short(queue), bytes([0])))
            mode = struct.pack("!HHQHB", 60, 0, len(body), HAS_DELIVERY_MODE, PERSISTENT if durable else 1)
            self._send(HEADER, mode)
            self._send(BODY, body)
            if confirmed and self._method()[0] != ACK:
                raise BrokerError("the broker did not take the message")
        except OSError:
            self.close()
            raise

    def get(self, queue: str, durable: bool = True) -> Optional[Message]:
        """Returns the first message, which the caller has to acknowledge. None if there is no message."""
        self.declare(queue, durable)
        try:
            self._send(METHOD, method(GET, struct.pack("!H", 0), short(queue), bytes([WAIT])))
            kind, rest = self._method()
            while kind == ACK:  # a confirm of a message for which nobody has waited
                kind, rest = self._method()
            if kind == GET_EMPTY:
                return None
            if kind != GET_OK:
                raise BrokerError(f"the broker answered {kind} to a get")
            size = struct.unpack("!HHQ", self._frame(HEADER)[:12])[2]
            body = b""
            while len(body) < size:
                body += self._frame(BODY)
            return Message(struct.unpack("!Q", rest[:8])[0], body)
        except OSError:
            self.close()
            raise

    def acknowledge(self, message: Message) -> None:
        """Makes the broker forget the message. The broker does not answer."""
        self._send(METHOD, method(ACK, struct.pack("!Q", message.tag), bytes([0])))

    def declare(self, queue: str, durable: bool = True) -> None:
        """Makes a queue of this name, if there is none yet."""
        try:
            if not self.stream.is_open:
                self._connect()
            self.stream.begin()
            if queue not in self._declared:
                bits = bytes([DURABLE if durable else WAIT])
                self._ask(method(DECLARE, struct.pack("!H", 0), short(queue), bits, struct.pack("!I", len(self._kind)), self._kind), DECLARE_OK)
                self._declared.add(queue)
        except OSError as fault:
            self.close()
            raise ConnectionRefusedError(str(fault)) from fault

    # --- The connection ---

    def _connect(self) -> None:
        self.stream.open()
        self.stream.send(b"AMQP\0\0\x09\1")
        self._expect(START)
        self._ask(method(START_OK, struct.pack("!I", 0), short("PLAIN"), long("\0guest\0guest"), short("en_US")), TUNE, channel=0)
        self._send(METHOD, method(TUNE_OK, struct.pack("!HIH", 1, 131_072, 0)), channel=0)
        self._ask(method(OPEN, short("/"), short(""), bytes([0])), OPEN_OK, channel=0)
        self._ask(method(CHANNEL_OPEN, short("")), CHANNEL_OPEN_OK)
        self._ask(method(SELECT, bytes([WAIT])), SELECT_OK)

    def _ask(self, payload: bytes, answer: Method, channel: int = 1) -> None:
        self._send(METHOD, payload, channel)
        self._expect(answer)

    def _expect(self, answer: Method) -> None:
        kind = self._method()[0]
        if kind != answer:
            raise BrokerError(f"the broker answered {kind}, not {answer}")

    def _method(self) -> Tuple[Method, bytes]:
        data = self._frame(METHOD)
        first, second = struct.unpack("!HH", data[:4])
        kind: Method = (first, second)
        if kind in (CLOSE, CHANNEL_CLOSE):
            raise BrokerError(data[6:].decode(errors="replace"))
        return kind, data[4:]

    def _frame(self, wanted: int) -> bytes:
        while True:
            kind, _, size = struct.unpack("!BHI", self.stream.exactly(7))
            data = self.stream.exactly(size + 1)
            if data[-1:] != END:
                raise BrokerError("a frame has no end")
            if kind == wanted:
                return data[:-1]
            if kind != HEARTBEAT:
                raise BrokerError(f"a frame of kind {kind} came instead of a frame of kind {wanted}")

    def _send(self, kind: int, payload: bytes, channel: int = 1) -> None:
        self.stream.send(struct.pack("!BHI", kind, channel, len(payload)) + payload + END)

    def close(self) -> None:
        self.stream.close()
        self._declared.clear()


def method(kind: Method, *parts: bytes) -> bytes:
    return struct.pack("!HH", *kind) + b"".join(parts)


def short(word: str) -> bytes:
    """A short string."""
    return bytes([len(word)]) + word.encode()


def long(word: str) -> bytes:
    """A long string."""
    return struct.pack("!I", len(word)) + word.encode()
