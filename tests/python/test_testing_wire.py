"""The clients of servers, on answers that were worked out by hand."""
from __future__ import annotations

import socket
import struct
import threading
import time
import unittest
from typing import Callable, List, Tuple
from unittest import mock

from jepmon.testing import Came, Failed
from jepmon.testing.node import ADDRESS
from jepmon.testing.servers.beanstalkd import Queue
from jepmon.testing.wire.amqp import CLASSIC, QUORUM, Amqp, method, short
from jepmon.testing.wire.postgres import Postgres, SqlError, values
from jepmon.testing.wire.resp import Redis, RedisError, request
from jepmon.testing.wire.streams import Stream
from jepmon.testing.wire.zookeeper import Found, NoSession, ZooKeeper, ZooKeeperError

PATIENCE = 60.0


class Scripted(unittest.TestCase):
    def server(self, *answers: bytes) -> Tuple[str, int]:
        """A server that answers each thing that it is sent by the next of these, and then ends the connection. Where it listens."""
        self.asked: List[bytes] = []
        listening = socket.create_server((ADDRESS, 0))
        self.addCleanup(listening.close)

        def serve() -> None:
            connection = listening.accept()[0]
            with connection:
                for answer in answers:
                    self.asked.append(connection.recv(1 << 16))
                    connection.sendall(answer)

        thread = threading.Thread(target=serve, daemon=True)
        thread.start()
        at: Tuple[str, int] = listening.getsockname()
        return at


class OfRedis(Scripted):
    def test_a_command_has_the_length_of_each_word(self) -> None:
        self.assertEqual(request("SET", "k", 12), b"*3\r\n$3\r\nSET\r\n$1\r\nk\r\n$2\r\n12\r\n")

    def test_each_kind_of_answer(self) -> None:
        redis = Redis(self.server(b"$2\r\n12\r\n", b"*2\r\n$1\r\na\r\n:7\r\n", b"$-1\r\n", b"-READONLY no\r\n", b""), PATIENCE)
        self.addCleanup(redis.close)
        self.assertEqual([redis.call("GET", "k"), redis.call("GET", "k"), redis.call("GET", "k")], [b"12", [b"a", 7], None])
        with self.assertRaisesRegex(RedisError, "READONLY no"):
            redis.call("SET", "k", 1)
        with self.assertRaisesRegex(ConnectionError, "closed"):
            redis.call("GET", "k")
        self.assertFalse(redis.stream.is_open)


class OfZooKeeper(Scripted):
    """A frame is its length and its content; an answer begins with the number of the request, a transaction and an error."""

    SESSION = b"\0\0\0\x25" + struct.pack(">iiq", 0, 60_000, 7) + b"\0\0\0\x10" + b"p" * 16 + b"\0"
    STAT = b"\0" * 32 + struct.pack(">i", 5) + b"\0" * 32  # four times and transactions, the version, and the rest

    def answer(self, number: int, error: int = 0, rest: bytes = b"") -> bytes:
        body = struct.pack(">iqi", number, 99, error) + rest
        return struct.pack(">i", len(body)) + body

    def connection(self, *answers: bytes) -> ZooKeeper:
        zookeeper = ZooKeeper(self.server(*answers), PATIENCE)
        self.addCleanup(zookeeper.close)
        return zookeeper

    def test_a_node_is_read_with_its_version(self) -> None:
        zookeeper = self.connection(self.SESSION, self.answer(1, 0, b"\0\0\0\2" + b"12" + self.STAT), self.answer(2, -101))
        self.assertEqual(zookeeper.get("/r1"), Found(b"12", 5))
        self.assertIsNone(zookeeper.get("/r2"))
        self.assertEqual(self.asked[1], b"\0\0\0\x10" + b"\0\0\0\1" + b"\0\0\0\4" + b"\0\0\0\3/r1" + b"\0")

    def test_a_node_that_is_not_there_is_created(self) -> None:
        zookeeper = self.connection(self.SESSION, self.answer(1, -101), self.answer(2))
        zookeeper.put("/r1", b"12")
        self.assertEqual([int.from_bytes(asked[8:12], "big") for asked in self.asked[1:]], [5, 1])

    def test_an_error_says_that_it_did_not_take_place(self) -> None:
        zookeeper = self.connection(self.SESSION, self.answer(1, -103), b"")
        with self.assertRaises(ZooKeeperError) as caught:
            zookeeper.set("/r1", b"12", 4)
        self.assertEqual(caught.exception.code, -103)
        with self.assertRaisesRegex(ConnectionError, "closed"):
            zookeeper.set("/r1", b"12")
        self.assertFalse(zookeeper.stream.is_open)

    def test_no_session_says_that_nothing_was_asked(self) -> None:
        with self.assertRaises(NoSession):
            self.connection(b"").get("/r1")
        with self.assertRaisesRegex(NoSession, "run out"):
            self.connection(self.SESSION[:8] + b"\0\0\0\0" + self.SESSION[12:]).get("/r1")


class OfBeanstalkd(Scripted):
    def queue(self, *answers: bytes) -> Queue:
        queue = Queue(self.server(*answers), Came())
        self.addCleanup(queue.close)
        return queue

    def test_a_job_goes_by_its_tube(self) -> None:
        queue = self.queue(b"USING q7\r\n", b"INSERTED 1\r\n", b"INSERTED 2\r\n", b"DRAINING\r\n")
        queue.enqueue(7, 123)
        queue.enqueue(7, 4)
        with self.assertRaisesRegex(Failed, "DRAINING"):
            queue.enqueue(7, 5)
        self.assertEqual(self.asked, [b"use q7\r\n", b"put 10 0 5 3\r\n123\r\n", b"put 10 0 5 1\r\n4\r\n", b"put 10 0 5 1\r\n5\r\n"])

    def test_a_job_comes_and_one_that_has_come_does_not_count(self) -> None:
        reserved = b"RESERVED 9 3\r\n123\r\n"
        queue = self.queue(b"WATCHING 2\r\n", b"WATCHING 1\r\n", reserved, b"DELETED\r\n", reserved, b"NOT_FOUND\r\n", b"TIMED_OUT\r\n", b"")
        self.assertEqual(queue.dequeue(7), 123)
        with self.assertRaisesRegex(Failed, "come before"):
            queue.dequeue(7)
        self.assertIsNone(queue.dequeue(7))
        with self.assertRaises(Failed):
            queue.dequeue(7)  # the connection has ended: what may have been sent comes again
        self.assertEqual(self.asked[:4], [b"watch q7\r\n", b"ignore default\r\n", b"reserve-with-timeout 0\r\n", b"delete 9\r\n"])

    def test_a_job_whose_answer_is_missing_may_be_inserted(self) -> None:
        with self.assertRaises(OSError):
            self.queue(b"USING q7\r\n", b"").enqueue(7, 1)
        with self.assertRaises(Failed):
            self.queue(b"").enqueue(7, 1)  # the tube was not named yet


class OfStreams(Scripted):
    def test_an_operation_has_its_time_as_a_whole(self) -> None:
        listening = socket.create_server((ADDRESS, 0))  # it takes connections, and says nothing
        self.addCleanup(listening.close)
        stream = Stream(listening.getsockname(), 0.2)
        stream.open()
        self.addCleanup(stream.close)
        begun = time.monotonic()
        with self.assertRaises(OSError):
            stream.line()
        self.assertGreaterEqual(time.monotonic() - begun, 0.15)
        with self.assertRaises(TimeoutError):
            stream.send(b"more")

    def test_nothing_listens(self) -> None:
        with socket.socket() as free:
            free.bind((ADDRESS, 0))
            at = free.getsockname()
        for ask in (lambda: Redis(at).call("PING"), lambda: Postgres(at, "x", 1.0).query("SELECT 1"), lambda: Amqp(at, 1.0).get("q")):
            with self.assertRaises(ConnectionRefusedError):
                ask()


def packet(kind: bytes, data: bytes) -> bytes:
    return kind + struct.pack("!i", len(data) + 4) + data


LOGIN = packet(b"R", b"\0\0\0\0") + packet(b"S", b"server_version\x0015\0") + packet(b"Z", b"I")
READY = packet(b"Z", b"I")


def row(*fields: bytes) -> bytes:
    return packet(b"D", struct.pack("!h", len(fields)) + b"".join(struct.pack("!i", len(field)) + field for field in fields))


class OfPostgres(Scripted):
    def sql(self, *answers: bytes) -> Postgres:
        sql = Postgres(self.server(*answers), "someone", PATIENCE)
        self.addCleanup(sql.close)
        return sql

    def test_rows(self) -> None:
        sql = self.sql(LOGIN, packet(b"T", b"") + row(b"12") + packet(b"C", b"SELECT 1\0") + READY)
        self.assertEqual(sql.query("SELECT v"), ([("12",)], 1))
        self.assertTrue(self.asked[0].endswith(b"user\0someone\0database\0postgres\0\0"))

    def test_an_error_leaves_the_session(self) -> None:
        error = packet(b"E", b"SERROR\0C40001\0Mcould not serialize\0\0")
        sql = self.sql(LOGIN, error + READY, packet(b"C", b"ROLLBACK\0") + READY)
        with self.assertRaises(SqlError) as raised:
            sql.query("UPDATE")
        self.assertEqual((raised.exception.state, str(raised.exception)), ("40001", "40001 could not serialize"))
        self.assertEqual(sql.query("ROLLBACK").rows, [])
        self.assertEqual(sql.connected, 1)

    def test_the_end_of_a_session_is_no_answer(self) -> None:
        sql = self.sql(LOGIN, packet(b"E", b"SFATAL\0C57P01\0Mterminating connection\0\0"))
        with self.assertRaisesRegex(ConnectionError, "57P01") as raised:
            sql.query("COMMIT")
        self.assertNotIsInstance(raised.exception, ConnectionRefusedError)

    def test_a_server_that_starts_has_sent_nothing_on(self) -> None:
        with self.assertRaisesRegex(ConnectionRefusedError, "57P03"):
            self.sql(packet(b"E", b"SFATAL\0C57P03\0Mthe database system is starting up\0\0")).query("SELECT 1")

    def test_a_field_may_be_null(self) -> None:
        self.assertEqual(values(struct.pack("!hi", 2, -1) + struct.pack("!i", 1) + b"x"), (None, "x"))


def frame(kind: int, data: bytes) -> bytes:
    return struct.pack("!BHI", kind, 1, len(data)) + data + b"\xce"


def said(first: int, second: int, *parts: bytes) -> bytes:
    return frame(1, method((first, second), *parts))


GREETING = (said(10, 10), said(10, 30), said(10, 41), said(20, 11), said(85, 11), said(50, 11))


class OfAmqp(Scripted):
    """Each answer follows the whole request, so requests that are sent at once have one answer."""

    def amqp(self, *answers: bytes) -> Amqp:
        listening = socket.create_server((ADDRESS, 0))
        self.addCleanup(listening.close)
        both = b"".join((*GREETING, *answers))

        def serve() -> None:
            with listening.accept()[0] as connection:
                connection.sendall(both)
                while connection.recv(1 << 16):
                    pass

        threading.Thread(target=serve, daemon=True).start()
        amqp = Amqp(listening.getsockname(), PATIENCE)
        self.addCleanup(amqp.close)
        return amqp

    def test_a_message_comes(self) -> None:
        got = said(60, 71, struct.pack("!Q", 9), b"\0", short(""), short("q"), struct.pack("!I", 0))
        amqp = self.amqp(got, frame(8, b""), frame(2, struct.pack("!HHQH", 60, 0, 2, 0)), frame(3, b"12"), said(60, 72, short("")))
        self.assertEqual(amqp.get("q"), (9, b"12"))
        self.assertIsNone(amqp.get("q"))

    def test_a_message_is_confirmed(self) -> None:
        self.amqp(said(60, 80, struct.pack("!QB", 1, 0))).publish("q", b"12")

    def test_a_message_that_is_refused(self) -> None:
        with self.assertRaisesRegex(ConnectionError, "did not take"):
            self.amqp(said(60, 120, struct.pack("!QB", 1, 0))).publish("q", b"12")

    def test_a_channel_that_is_closed_says_why(self) -> None:
        closed = said(20, 40, struct.pack("!H", 404), short("NOT_FOUND"), struct.pack("!HH", 60, 40))
        with self.assertRaisesRegex(ConnectionError, "NOT_FOUND") as raised:
            self.amqp(closed).publish("q", b"12")
        self.assertNotIsInstance(raised.exception, ConnectionRefusedError)  # the message was sent

    def test_a_queue_says_of_which_kind_it_is(self) -> None:
        for kind in (CLASSIC, QUORUM):
            sent: List[bytes] = []
            amqp = Amqp((ADDRESS, 0), PATIENCE, kind)
            with mock.patch.object(amqp.stream, "begin"), mock.patch.object(amqp, "_connect"), \
                    mock.patch.object(amqp, "_ask", lambda payload, answer: sent.append(payload)):
                amqp.declare("q")
            self.assertTrue(sent[0].endswith(b"\x0cx-queue-typeS" + struct.pack("!I", len(kind)) + kind.encode()), sent)

    def test_what_comes_before_has_sent_no_message(self) -> None:
        ask: Callable[[], object] = lambda: Amqp(self.server(b"HTTP/1.1 400 Bad Request\r\n\r\n"), PATIENCE).publish("q", b"12")
        with self.assertRaises(ConnectionRefusedError):
            ask()


if __name__ == "__main__":
    unittest.main()
