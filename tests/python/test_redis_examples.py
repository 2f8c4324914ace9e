"""The examples that test a Redis of their own; skipped where there is none."""
from __future__ import annotations

import os
import shutil
import subprocess
import sys
import unittest

from tests.python import TOP
from tests.python.monitored import Monitored

PATIENCE = 240.0  # seconds; on a machine of one's own each takes ten at most


class Redis(Monitored):
    def setUp(self) -> None:
        if shutil.which("redis-server") is None:
            self.skipTest("there is no redis-server")
        super().setUp()

    def ran(self, name: str, *words: str) -> "subprocess.CompletedProcess[str]":
        ran = subprocess.run([sys.executable, str(TOP / "examples" / "python" / name), "--jepmon", self.program, *words],
                             stdout=subprocess.PIPE, stderr=subprocess.PIPE, universal_newlines=True, timeout=PATIENCE, env=os.environ)
        self.assertEqual(ran.stderr, "")
        return ran

    def test_a_server_that_keeps_nothing_is_killed(self) -> None:
        ran = self.ran("redis_loss.py", "--seconds", "20", "--out", str(self.room))
        self.assertEqual(ran.returncode, 1, ran.stdout)
        self.assertRegex(ran.stdout.splitlines()[-1], r" <-- \{:type :ok, :process [0-9]+, :f :read, :value \[[0-9]+ ABSENT\]\}$")
        self.assertIn(f"({(self.room / 'latest').resolve()})", ran.stdout.splitlines()[0])
        self.assertIn("redis-server is down", (self.room / "latest" / "page.html").read_text())

    def test_a_server_that_keeps_each_command_is_killed(self) -> None:
        ran = self.ran("redis_loss.py", "--seconds", "3", "--keep", "--out", str(self.room))
        self.assertIn(ran.returncode, (0, 2), ran.stdout)  # on a busy machine so many operations are open at once that a key is unknown
        self.assertIn("kill -9 of redis-server", (self.room / "latest" / "history.edn").read_text())

    def test_a_lock_whose_work_is_longer_than_its_lease(self) -> None:
        self.assertEqual(self.ran("redis_lock.py", "--seconds", "20").returncode, 1)
        self.assertEqual(self.ran("redis_lock.py", "--seconds", "1", "--lease", "60000").returncode, 0)

    def test_reads_at_the_primary(self) -> None:
        self.assertIn(self.ran("redis_stale.py", "--seconds", "2", "--read-at", "primary").returncode, (0, 2))


if __name__ == "__main__":
    unittest.main()
