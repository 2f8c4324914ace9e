"""Strikes on clients: one is paused, also while it holds a lock, or crashes before it learns the result of its operation."""
from __future__ import annotations

import threading
import time
import unittest
from unittest import mock

from jepmon.testing import Client
from jepmon.testing.crew import Crew, Mortal
from jepmon.testing.errors import Crashed
from jepmon.testing.strikes.clients import chosen
from jepmon.testing.template import __file__ as TEMPLATE
from tests.python.test_testing_run import Runs

LEASE = """
import threading, time
from jepmon.testing import Client, Plant, Server
HELD, LOCK = {}, threading.Lock()
class Lease(Client):
    work, seconds = 0.01, 0.3
    def acquire(self, key):
        with LOCK:
            if HELD.get(key, 0.0) > time.monotonic():
                return False
            HELD[key] = time.monotonic() + self.seconds
            return True
    def release(self, key):
        with LOCK:
            HELD.pop(key, None)
        return True
class Mine(MyServer):
    objects = {"mutex": Lease}
    def client(self, number):
        return Lease()
"""


class Counting(Client):
    def __init__(self) -> None:
        self.asked = 0

    def write(self, key: int, value: int) -> None:
        self.asked += 1


class Strikes(unittest.TestCase):
    def setUp(self) -> None:
        self.client, self.crew = Counting(), Crew()
        self.mortal = Mortal(self.client, self.crew, 3)

    def test_one_that_is_paused_by_two_goes_on_when_both_have_ended(self) -> None:
        self.crew.pause(3)
        self.crew.pause(3)
        done = threading.Event()
        thread = threading.Thread(target=lambda: (self.mortal.write(1, 2), done.set()))
        thread.start()
        self.addCleanup(thread.join)
        self.crew.go_on(3)
        time.sleep(0.1)
        self.assertFalse(done.is_set())
        self.crew.go_on(3)
        self.assertTrue(done.wait(60.0))

    def test_one_that_crashes_has_asked_and_asks_nothing_more(self) -> None:
        self.crew.crash(3)
        self.crew.crash(4)
        for _ in range(2):
            with self.assertRaises(Crashed):
                self.mortal.write(1, 2)
        self.assertEqual((self.client.asked, self.mortal.has_crashed), (1, True))
        Mortal(self.client, self.crew, 3).write(1, 2)  # the one that comes in its place
        self.assertEqual(self.client.asked, 2)

    def test_which_client_of_a_node(self) -> None:
        nodes = ["n1", "n2"]
        cluster = mock.Mock()
        cluster.crew.size = 5
        cluster.server.node_of.side_effect = lambda number: nodes[number % 2]
        self.assertEqual([chosen(cluster, "n1", which) for which in (0.0, 0.5, 1.0)], [0, 2, 4])  # type: ignore[arg-type]
        self.assertEqual([chosen(cluster, "n2", which) for which in (0.0, 1.0)], [1, 3])  # type: ignore[arg-type]
        self.assertEqual(chosen(cluster, "n9", 0.5), 2)  # type: ignore[arg-type]


class Whole(Runs):
    def test_a_right_server_stays_legal(self) -> None:
        ran = self.ran(TEMPLATE, "--time", "4", "--min-ok", "5", "--nemesis", "client-pause:lasting=0.1..0.3:rest=0.1,client-crash:lasting=0.1:rest=0.1")
        self.assertEqual((ran.returncode, ran.stderr), (0, ""), ran.stdout)
        self.assertRegex(ran.stdout, r"strikes: \d+ client-crash, \d+ client-pause")
        history = (self.room / "runs" / "latest" / "part-0001" / "history.edn").read_text()
        self.assertIn("[client-crash n1, other, which=", history)
        self.assertIn(":type :info, :process", history)

    def test_a_lease_that_runs_out_while_its_holder_is_paused_is_found(self) -> None:
        ran = self.ran(self.mine(LEASE), "--time", "60", "--min-ok", "1", "--keys", "1", "--nemesis", "client-pause:lasting=1")
        self.assertEqual(ran.returncode, 1, ran.stdout + ran.stderr)
        self.assertIn("which client", ran.stderr)


del Runs  # its tests are those of another file


if __name__ == "__main__":
    unittest.main()
