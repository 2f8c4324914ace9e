"""Wall clocks of single nodes. Skipped where there is no compiler."""
from __future__ import annotations

import os
import pathlib
import subprocess
import sys
import tempfile
import time
import unittest
from typing import Dict, Set
from unittest import mock

from jepmon.testing import clocks
from jepmon.testing.clocks import Clock, compiled
from jepmon.testing.errors import ServerError
from jepmon.testing.needs import planned
from jepmon.testing.run import Given
from jepmon.testing.servers.etcd import Etcd
from jepmon.testing.strikes.clock import bumped, strobed
from jepmon.testing.template import MyServer

TELLS = """
import sys, time
for line in sys.stdin:
    print(time.time(), time.clock_gettime(time.CLOCK_REALTIME), time.monotonic(), flush=True)
"""
NEAR = 20.0  # seconds, on a busy machine


@unittest.skipIf(clocks.why_not(), f"no clocks: {clocks.why_not()}")
class Clocks(unittest.TestCase):
    def setUp(self) -> None:
        room = tempfile.TemporaryDirectory()
        self.addCleanup(room.cleanup)
        self.room = pathlib.Path(room.name)
        self.node = mock.Mock(folder=self.room / "n1")
        self.node.name = "n1"
        self.clock = Clock(self.node, compiled(self.room))

    def started(self, *words: str, **more: str) -> "subprocess.Popen[str]":
        environment: Dict[str, str] = {**os.environ, **self.node.preloaded, **more}
        process = subprocess.Popen(words, stdin=subprocess.PIPE, stdout=subprocess.PIPE, universal_newlines=True, env=environment)
        assert process.stdin is not None and process.stdout is not None
        self.addCleanup(process.wait)
        self.addCleanup(process.kill)
        self.addCleanup(process.stdin.close)
        self.addCleanup(process.stdout.close)
        return process

    def ahead(self, process: "subprocess.Popen[str]") -> "list[float]":
        """By how many seconds the clocks of a process are: two ways to the wall clock, and the monotonic one."""
        assert process.stdin is not None and process.stdout is not None
        process.stdin.write("\n")
        process.stdin.flush()
        told = list(map(float, process.stdout.readline().split()))
        return [one - here for one, here in zip(told, (time.time(), time.time(), time.monotonic()))]

    def test_a_clock_is_set_while_a_process_runs(self) -> None:
        process = self.started(sys.executable, "-c", TELLS)
        for seconds in (0.0, 1000.0, -1000.0, 0.0):
            self.clock.set_ahead(seconds)
            one, other, monotonic = self.ahead(process)
            for found in (one, other):
                self.assertAlmostEqual(found, seconds, delta=NEAR)
            self.assertAlmostEqual(monotonic, 0.0, delta=NEAR)

    def test_another_program(self) -> None:
        self.clock.set_ahead(86_400.0)
        process = self.started("date", "+%s")
        assert process.stdout is not None
        self.assertAlmostEqual(float(process.stdout.readline()), time.time() + 86_400.0, delta=NEAR)

    def test_strikes(self) -> None:
        process, cluster = self.started(sys.executable, "-c", TELLS), mock.Mock(clocks={"n1": self.clock})
        with bumped(cluster, self.node, {"ahead": 1000.0}):
            self.assertAlmostEqual(self.ahead(process)[0], 1000.0, delta=NEAR)
        self.assertAlmostEqual(self.ahead(process)[0], 0.0, delta=NEAR)
        seen: Set[int] = set()
        with strobed(cluster, self.node, {"ahead": 1000.0, "period": 0.01}):
            end = time.monotonic() + 60.0
            while len(seen) < 2 and time.monotonic() < end:
                seen.add(round(self.ahead(process)[0] / 1000.0))
        self.assertEqual(seen, {0, 1})
        self.assertAlmostEqual(self.ahead(process)[0], 0.0, delta=NEAR)

    def test_a_program_that_is_not_reached_is_said(self) -> None:
        process = self.started(sys.executable, "-c", TELLS)
        self.ahead(process)
        self.node.pid = process.pid
        self.clock.test_reached(self.node)
        other = self.started(sys.executable, "-c", TELLS, LD_PRELOAD="")
        self.ahead(other)
        self.node.pid = other.pid
        with self.assertRaisesRegex(ServerError, "^the clock of n1 can't be set: "):
            self.clock.test_reached(self.node)


class Needs(unittest.TestCase):
    def given(self, server: "type[MyServer] | type[Etcd]", model: str) -> Given:
        return Given(server, model, "", 2.0, 5, 5, 1, "bump", 0.0, 1, "proxy", 20, 0.0, "runs", None)

    def test_without_a_compiler_it_is_said_before_anything_starts(self) -> None:
        with mock.patch.object(clocks, "compiler", return_value=None):
            with self.assertRaisesRegex(ServerError, "^--nemesis bump: it needs a compiler of C, of cc, gcc, clang: .*; there are kill, pause, "):
                planned(self.given(MyServer, "register"))

    def test_a_server_that_can_not_be_reached_is_refused(self) -> None:
        with self.assertRaisesRegex(ServerError, "^--nemesis bump: etcd is written in Go, .*; there are kill, pause, "):
            planned(self.given(Etcd, "register"))


if __name__ == "__main__":
    unittest.main()
