"""Nodes, the links between them, and that none is left behind."""
from __future__ import annotations

import os
import pathlib
import random
import signal
import socket
import subprocess
import sys
import tempfile
import threading
import time
import unittest
from typing import Callable, List

from jepmon.testing.errors import ServerError
from jepmon.testing.family import adopt, continue_family, family, kill_family, parent_of, stop_family
from jepmon.testing.guard import Guard, environment
from jepmon.testing.links import CLIENTS, CUT, Effect, Proxied, both_ways
from jepmon.testing.node import ADDRESS, Node, Ports, is_free, last_words
from jepmon.testing.undisturbed import undisturbed

PATIENCE = 60.0  # seconds, on a busy machine
ECHO = """
import socket, sys, threading
def serve(one):
    with one:
        for line in one.makefile("rb"):
            one.sendall(line)
with socket.create_server(("127.0.0.1", int(sys.argv[1]))) as server:
    while True:
        threading.Thread(target=serve, args=(server.accept()[0],), daemon=True).start()
"""


def wait_for(what: Callable[[], bool], seconds: float = PATIENCE) -> bool:
    end = time.monotonic() + seconds
    while time.monotonic() < end:
        if what():
            return True
        time.sleep(0.02)
    return False


def is_alive(pid: int) -> bool:
    try:
        return pathlib.Path(f"/proc/{pid}/stat").read_text().rpartition(")")[2].split()[0] not in "ZX"
    except OSError:
        return False


class Room(unittest.TestCase):
    def setUp(self) -> None:
        room = tempfile.TemporaryDirectory()
        self.addCleanup(room.cleanup)
        self.room = pathlib.Path(room.name)
        (self.room / "n1").mkdir()
        self.guard = Guard(self.room / "n1")
        self.addCleanup(self.guard.end)

    def node(self, *words: str) -> Node:
        node = Node(0, self.room / "n1", self.room / "n1.log", {"client": Ports(random.Random()).free()}, self.guard)
        node.words = [word.replace("PORT", str(node.ports["client"])) for word in words]
        self.addCleanup(node.kill)
        return node


class Nodes(Room):
    def test_it_starts_and_is_killed(self) -> None:
        node = self.node(sys.executable, "-c", ECHO, "PORT")
        node.start()
        node.wait_until(node.accepts, PATIENCE, "was not ready")
        node.kill()
        self.assertTrue(wait_for(lambda: is_free(node.ports["client"])))
        node.start()
        node.wait_until(node.accepts, PATIENCE, "was not ready")

    def test_none_of_its_family_stays_in_the_table_of_processes(self) -> None:
        adopt()
        node = self.node("sh", "-c", "sleep 600 & setsid sh -c 'sleep 600 & wait' & wait")
        node.start()
        pid = node.pid
        assert pid is not None
        self.assertTrue(wait_for(lambda: len(family(pid)) == 4))
        members = family(pid)
        node.kill()
        self.assertEqual([one for one in members if parent_of(one) != -1], [])

    def test_one_that_ends_names_its_log(self) -> None:
        node = self.node("sh", "-c", "echo a port is taken; exit 7")
        node.start()
        said = r"^n1 has died by itself, with status 7; its log is .*n1\.log, which ends: a port is taken$"
        with self.assertRaisesRegex(ServerError, said):
            node.wait_until(node.accepts, PATIENCE, "was not ready")

    def test_what_a_log_says(self) -> None:
        lines = ["starting", "panic: no space left on device", "", "goroutine 1:", "  main.main()", "  main.go:28", "  +0x17"]
        for said, wanted in ((lines, "says: panic: no space left on device"), (lines[:3], "ends: starting | panic: no space left on device"),
                             (["a", "b", "c", "d"], "ends: b | c | d"), (["", " "], "is empty")):
            self.assertEqual(last_words(said), wanted)

    def test_one_that_is_never_ready_names_its_log(self) -> None:
        node = self.node("sleep", "60")
        node.start()
        with self.assertRaisesRegex(ServerError, r"^n1 was not ready for 0\.2 s \(Connection.*; its log is .*n1\.log, which is empty$"):
            node.wait_until(node.accepts, 0.2, "was not ready")

    def test_one_that_is_no_program(self) -> None:
        with self.assertRaisesRegex(ServerError, "n1 can't be started: /nowhere/server: No such file"):
            self.node("/nowhere/server").start()

    def test_a_port_that_is_taken_is_not_given(self) -> None:
        with socket.create_server((ADDRESS, 0)) as server:
            self.assertFalse(is_free(server.getsockname()[1]))
        ports = Ports(random.Random(1))
        given = [ports.free() for _ in range(20)]
        self.assertEqual(len(set(given)), 20)


class Families(unittest.TestCase):
    def family(self) -> "subprocess.Popen[bytes]":
        """A process with a child in a session of its own, and a grandchild."""
        process = subprocess.Popen(["sh", "-c", "setsid sh -c 'sleep 600 & wait' & wait"])
        self.addCleanup(process.wait)
        self.addCleanup(kill_family, process.pid)
        self.assertTrue(wait_for(lambda: len(family(process.pid)) == 3))
        return process

    def states(self, pids: List[int]) -> str:
        return "".join(pathlib.Path(f"/proc/{pid}/stat").read_text().rpartition(")")[2].split()[0] for pid in pids)

    def test_all_stop_and_go_on(self) -> None:
        process = self.family()
        members = stop_family(process.pid)
        self.assertTrue(wait_for(lambda: self.states(members) == "TTT"))
        continue_family(process.pid)
        self.assertTrue(wait_for(lambda: "T" not in self.states(members)))

    def test_all_are_killed(self) -> None:
        process = self.family()
        members = family(process.pid)
        kill_family(process.pid)
        process.wait()
        self.assertTrue(wait_for(lambda: not any(map(is_alive, members))))

    def test_orphans_stay_in_the_family(self) -> None:
        with tempfile.TemporaryDirectory() as room:
            code = "setsid sh -c '(sleep 600 & echo $! >orphan)'; exec sleep 600"
            process = subprocess.Popen(["sh", "-c", code], cwd=room, preexec_fn=adopt)
            self.addCleanup(process.wait)
            self.addCleanup(kill_family, process.pid)
            told = pathlib.Path(room, "orphan")
            self.assertTrue(wait_for(lambda: told.exists() and told.read_text() != "" and len(family(process.pid)) == 2))
            orphan = int(told.read_text())
            self.assertEqual(parent_of(orphan), process.pid)
            stop_family(process.pid)
            self.assertTrue(wait_for(lambda: self.states([process.pid, orphan]) == "TT"))
            kill_family(process.pid)
            self.assertTrue(wait_for(lambda: not is_alive(orphan)))

    def test_nothing_is_left_where_the_test_is_killed(self) -> None:
        with tempfile.TemporaryDirectory() as room:
            folder = pathlib.Path(room, "data")
            folder.mkdir()
            code = ("import pathlib, subprocess, sys, time; from jepmon.testing.guard import Guard; "
                    "guard = Guard(pathlib.Path(sys.argv[1])); child = subprocess.Popen(['sleep', '600'], start_new_session=True); guard.watch(child.pid); "
                    "print(child.pid, flush=True); time.sleep(600)")
            test = subprocess.Popen([sys.executable, "-c", code, str(folder)], stdout=subprocess.PIPE, env=environment())
            assert test.stdout is not None
            with test.stdout:
                pid = int(test.stdout.readline())
            self.assertTrue(is_alive(pid))
            test.send_signal(signal.SIGKILL)
            test.wait()
            self.assertTrue(wait_for(lambda: not is_alive(pid)))
            self.assertTrue(wait_for(lambda: not folder.exists()))

    def test_a_folder_in_which_a_process_writes_still_is_removed(self) -> None:
        with tempfile.TemporaryDirectory() as room:
            folder = pathlib.Path(room, "data")
            folder.mkdir()
            guard = Guard(folder)
            writes = subprocess.Popen(["sh", "-c", "while :; do mkdir data/sub; : > data/sub/file; done 2>/dev/null"], cwd=room)
            self.assertTrue(wait_for(lambda: (folder / "sub" / "file").exists()))
            killer = threading.Timer(0.2, writes.kill)
            killer.start()
            guard.end()
            writes.wait()
            self.assertFalse(folder.exists())


class Undisturbed(Room):
    """Ctrl-C comes while a process is started."""

    def test_a_signal_comes_at_the_end_of_the_block(self) -> None:
        done = []
        with self.assertRaises(KeyboardInterrupt):
            with undisturbed():
                signal.raise_signal(signal.SIGINT)
                done.append(1)
        self.assertEqual((done, signal.getsignal(signal.SIGINT)), ([1], signal.default_int_handler))

    def test_a_program_that_is_run_to_its_end_ends_with_all_that_it_started(self) -> None:
        node, length = self.node("true"), f"600.{os.getpid()}"  # of this test alone
        timer = threading.Timer(0.5, lambda: os.kill(os.getpid(), signal.SIGINT))
        timer.start()
        with self.assertRaises(KeyboardInterrupt):
            node.completed(["sh", "-c", f"sleep {length} & wait"])
        timer.join()
        self.assertTrue(wait_for(lambda: not any(length in words for words in commands())))

    def test_one_that_ends_otherwise_names_its_log(self) -> None:
        with self.assertRaisesRegex(ServerError, "^sh ended with status 3; its log is .*n1.log, which ends: no room$"):
            self.node("true").completed(["sh", "-c", "echo no room; exit 3"])
        with self.assertRaisesRegex(ServerError, "^/nowhere/initdb can't be started: No such file"):
            self.node("true").completed(["/nowhere/initdb"])


def commands() -> List[str]:
    """Of all processes."""
    return subprocess.run(["ps", "-eo", "args"], stdout=subprocess.PIPE, universal_newlines=True).stdout.splitlines()


class LinksOfANode(Room):
    def setUp(self) -> None:
        super().setUp()
        self.echo = self.node(sys.executable, "-c", ECHO, "PORT")
        self.links = Proxied([self.echo], Ports(random.Random()))
        self.addCleanup(self.links.end)
        self.echo.start()
        self.links.up(self.echo)
        self.assertTrue(wait_for(lambda: not is_free(self.echo.port)))

    def connection(self) -> socket.socket:
        connection = socket.create_connection((ADDRESS, self.echo.port), PATIENCE)
        self.addCleanup(connection.close)
        return connection

    def test_what_is_cut_comes_later(self) -> None:
        connection = self.connection()
        connection.sendall(b"one\n")
        self.assertEqual(connection.recv(100), b"one\n")
        cut = self.links.hold(both_ways(["n1"], [CLIENTS]), CUT)
        other = self.links.hold([("n1", CLIENTS)], CUT)
        connection.sendall(b"two\n")
        connection.settimeout(0.5)
        with self.assertRaises(TimeoutError if sys.version_info >= (3, 10) else socket.timeout):
            connection.recv(100)
        self.links.release(cut)
        with self.assertRaises(TimeoutError if sys.version_info >= (3, 10) else socket.timeout):
            connection.recv(100)  # another strike still holds one way
        self.links.release(other)
        connection.settimeout(PATIENCE)
        self.assertEqual(connection.recv(100), b"two\n")

    def test_who_sends_no_more_is_answered_all_the_same(self) -> None:
        connection = self.connection()
        connection.sendall(b"one\n")
        connection.shutdown(socket.SHUT_WR)
        self.assertEqual(connection.makefile("rb").read(), b"one\n")

    def test_what_is_slow_takes_longer(self) -> None:
        connection = self.connection()
        self.links.hold(both_ways(["n1"], [CLIENTS]), Effect(delay=0.2, jitter=0.1))
        begun = time.monotonic()
        connection.sendall(b"one\n")
        self.assertEqual(connection.recv(100), b"one\n")
        self.assertGreaterEqual(time.monotonic() - begun, 0.4)  # both ways

    def test_a_link_to_a_node_that_is_cut_from_others_is_open_to_clients(self) -> None:
        self.links.hold(both_ways(["n1"], ["n2"]), CUT)
        connection = self.connection()
        connection.sendall(b"one\n")
        self.assertEqual(connection.recv(100), b"one\n")

    def test_a_node_that_is_down_refuses(self) -> None:
        self.echo.kill()
        self.links.down(self.echo)
        with self.assertRaises(ConnectionRefusedError):
            socket.create_connection((ADDRESS, self.echo.port), PATIENCE)
        self.links.up(self.echo)
        self.assertTrue(is_free(self.echo.port))  # until the node listens
        self.echo.start()
        self.assertTrue(wait_for(lambda: not is_free(self.echo.port)))

    def test_a_fault_of_the_links_is_said(self) -> None:
        self.links.end()
        with self.assertRaisesRegex(ServerError, "the process of the links"):
            self.links.hold(both_ways(["n1"], [CLIENTS]), CUT)


if __name__ == "__main__":
    unittest.main()
