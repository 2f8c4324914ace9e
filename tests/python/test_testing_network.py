"""Nodes in network namespaces, where this machine and this user may make some; else these tests are skipped."""
from __future__ import annotations

import os
import pathlib
import signal
import socket
import subprocess
import sys
import time
import unittest
from typing import Set
from unittest import mock

from jepmon.testing import links
from jepmon.testing.errors import ServerError
from jepmon.testing.guard import environment
from jepmon.testing.links import AUTO, CLIENTS, CUT, DIRECT, NAMESPACES, PROXY, Effect, Switched, both_ways, network
from jepmon.testing.node import Node
from jepmon.testing.places import HERE, Place, why_not
from tests.python.test_testing_nodes import PATIENCE, Room, is_alive, wait_for

PORT = 7000
ECHO = """
import socket, sys, threading
def serve(one):
    with one:
        for line in one.makefile("rb"):
            one.sendall(line)
with socket.create_server((sys.argv[1], int(sys.argv[2]))) as server:
    while True:
        threading.Thread(target=serve, args=(server.accept()[0],), daemon=True).start()
"""
TEST = """
import sys, time
from jepmon.testing.places import Place
import subprocess
place = Place("10.0.0.1")
with place.inside():
    child = subprocess.Popen(["sleep", "600"], stdin=subprocess.PIPE)
    print(child.pid, __import__("os").readlink("/proc/thread-self/ns/net"), flush=True)
time.sleep(600)
"""
TIMED_OUT = TimeoutError if sys.version_info >= (3, 10) else socket.timeout


def namespaces() -> Set[str]:
    """Those that some process is in."""
    found = set()
    for path in pathlib.Path("/proc").glob("[0-9]*/ns/net"):
        try:
            found.add(os.readlink(path))
        except OSError:
            pass
    return found


@unittest.skipIf(why_not(), f"no network namespaces: {why_not()}")
class Namespaces(Room):
    def setUp(self) -> None:
        super().setUp()
        self.nodes = [self.started(number) for number in range(2)]
        self.links = Switched(self.nodes)
        self.addCleanup(self.links.end)
        for node in self.nodes:
            node.words = [sys.executable, "-c", ECHO, node.address, str(PORT)]
            node.start()
            with node.inside():
                node.wait_until(node.accepts, PATIENCE, "was not ready")

    def started(self, number: int) -> Node:
        node = Node(number, self.room, self.room / f"n{number + 1}.log", {"client": PORT}, self.guard)
        self.addCleanup(node.kill)
        return node

    def connection(self, node: int = 0, source: str = CLIENTS) -> socket.socket:
        """From where clients are, or from the other node."""
        with self.links.clients() if source == CLIENTS else self.nodes[1 - node].inside():
            connection = socket.create_connection(self.nodes[node].at, PATIENCE)
        self.addCleanup(connection.close)
        return connection

    def asked(self, connection: socket.socket, line: bytes = b"one\n") -> bytes:
        connection.sendall(line)
        return connection.recv(100)

    def test_nodes_are_reached_by_clients_and_by_each_other(self) -> None:
        self.assertEqual([self.asked(self.connection(node, source)) for node in (0, 1) for source in (CLIENTS, "")], [b"one\n"] * 4)

    def test_nobody_else_reaches_them(self) -> None:
        with socket.socket() as outside:
            outside.settimeout(0.3)
            with self.assertRaises(OSError):
                outside.connect(("127.0.0.1", PORT))

    def test_what_is_cut_comes_later(self) -> None:
        connection = self.connection()
        self.assertEqual(self.asked(connection), b"one\n")
        cut = self.links.hold(both_ways(["n1"], [CLIENTS]), CUT)
        connection.settimeout(0.5)
        with self.assertRaises(TIMED_OUT):
            self.asked(connection, b"two\n")
        self.assertEqual(self.asked(self.connection(0, "n2")), b"one\n")  # the nodes reach each other
        self.links.release(cut)
        connection.settimeout(PATIENCE)
        self.assertEqual(connection.recv(100), b"two\n")

    def test_nodes_are_cut_off_from_each_other_alone(self) -> None:
        connection = self.connection(0, "n2")
        self.links.hold(both_ways(["n1"], ["n2"]), CUT)
        connection.settimeout(0.5)
        with self.assertRaises(TIMED_OUT):
            self.asked(connection)
        self.assertEqual([self.asked(self.connection(node)) for node in (0, 1)], [b"one\n"] * 2)

    def test_who_is_where_the_node_is_reaches_it_when_it_is_cut_off(self) -> None:
        self.links.hold(both_ways(["n1"], [CLIENTS, "n2"]), CUT)
        with self.nodes[0].inside():
            self.nodes[0].accepts()

    def test_what_is_slow_takes_longer(self) -> None:
        connection = self.connection()
        self.links.hold(both_ways(["n1"], [CLIENTS]), Effect(delay=0.2))
        begun = time.monotonic()
        self.assertEqual(self.asked(connection), b"one\n")
        self.assertGreaterEqual(time.monotonic() - begun, 0.4)  # both ways

    def test_packets_are_lost_and_late_and_wrong_and_all_comes_once_and_in_order(self) -> None:
        """TCP sees to that: what is lost, or has a wrong bit, is sent again."""
        connection = self.connection()
        for effect in (Effect(loss=0.2), Effect(reorder=0.5), Effect(corrupt=0.2), Effect(loss=0.05, reorder=0.2, corrupt=0.05, jitter=0.01)):
            with self.subTest(effect):
                held = self.links.hold(both_ways(["n1"], [CLIENTS]), effect)
                sent = b"".join(b"%04d" % number for number in range(250)) + b"\n"
                connection.sendall(sent)
                came = b""
                while len(came) < len(sent):
                    came += connection.recv(1 << 16)
                self.assertEqual(came, sent)
                self.links.release(held)

    def test_all_packets_are_lost(self) -> None:
        connection = self.connection()
        self.links.hold([("n1", CLIENTS)], Effect(loss=1.0))
        connection.settimeout(0.5)
        with self.assertRaises(TIMED_OUT):
            self.asked(connection)

    def test_much_goes_through(self) -> None:
        connection, sent = self.connection(), b"x" * 999 + b"\n"
        connection.sendall(sent * 200)
        came = b""
        while len(came) < 200_000:
            came += connection.recv(1 << 16)
        self.assertEqual(came, sent * 200)

    def test_a_node_that_is_down_refuses(self) -> None:
        self.nodes[0].kill()
        with self.assertRaises(ConnectionRefusedError):
            self.connection()

    def test_one_that_listens_at_the_loopback_alone_is_told_so(self) -> None:
        node = self.nodes[0]
        node.kill()
        node.words = [sys.executable, "-c", ECHO, "127.0.0.1", str(PORT)]
        node.start()
        said = (r"^n1 listens at 127\.0\.0\.1, port 7000, where nobody else reaches it in its network namespace: let it listen at "
                r"node\.address, which is 10\.0\.0\.1, or use --network proxy$")
        with node.inside(), self.assertRaisesRegex(ServerError, said):
            node.wait_until(node.accepts, PATIENCE, "was not ready")

    def test_one_that_speaks_to_itself_at_the_loopback_may_come_later(self) -> None:
        node = self.nodes[0]
        node.kill()
        node.ports["own"] = PORT + 1
        node.words = [sys.executable, "-c", ECHO, "127.0.0.1", str(PORT + 1)]
        node.start()
        with node.inside(), self.assertRaisesRegex(ServerError, r"^n1 was not ready for 3 s "):
            node.wait_until(node.accepts, 3.0, "was not ready")

    def test_a_thread_comes_back(self) -> None:
        home = os.readlink(HERE)
        with self.assertRaises(KeyError), self.nodes[0].inside():
            self.assertNotEqual(os.readlink(HERE), home)
            raise KeyError
        self.assertEqual(os.readlink(HERE), home)

    def test_none_is_left(self) -> None:
        before = namespaces()
        place = Place("10.0.0.9")
        with place.inside():
            name = os.readlink(HERE)
        place.leave_packets()
        place.end()
        self.assertNotIn(name, namespaces())
        self.assertLessEqual(namespaces(), before)

    def test_none_is_left_where_the_test_is_killed(self) -> None:
        test = subprocess.Popen([sys.executable, "-c", TEST], stdout=subprocess.PIPE, env=environment())
        assert test.stdout is not None
        with test.stdout:
            pid, name = test.stdout.readline().decode().split()
        self.assertIn(name, namespaces())
        test.send_signal(signal.SIGKILL)
        test.wait()
        os.kill(int(pid), signal.SIGKILL)  # as the guard of a test does
        self.assertTrue(wait_for(lambda: not is_alive(int(pid)) and name not in namespaces()))


class TheChoice(unittest.TestCase):
    def test_links_that_nothing_strikes_need_nothing(self) -> None:
        self.assertEqual([network(AUTO, False), network(PROXY, False)], [DIRECT, PROXY])

    def test_namespaces_where_there_are_some(self) -> None:
        self.assertEqual(network(AUTO, True), PROXY if why_not() else NAMESPACES)

    def test_nodes_that_find_one_another_by_addresses_take_some(self) -> None:
        with self.assertRaisesRegex(ServerError, "^--network proxy: the nodes of this server find one another by their addresses"):
            network(PROXY, True, True)
        with mock.patch.object(links, "why_not", return_value=None):
            self.assertEqual(network(AUTO, False, True), NAMESPACES)
        with mock.patch.object(links, "why_not", return_value="not permitted"):
            with self.assertRaisesRegex(ServerError, "^--network namespaces: .*: not permitted; they need root, and one node needs none$"):
                network(AUTO, False, True)

    def test_where_there_are_none_it_is_said(self) -> None:
        if why_not() is None:
            self.assertEqual(network(NAMESPACES, False), NAMESPACES)
        else:
            with self.assertRaisesRegex(ServerError, "^--network namespaces: namespaces are not possible here: "):
                network(NAMESPACES, True)


if __name__ == "__main__":
    unittest.main()
