"""Long histories in Jepsen's form: events that are kept in a file, and limits that shards do not have."""
from __future__ import annotations

import pathlib
import subprocess
import sys
import unittest
from typing import List, Optional
from unittest import mock

from jepmon import edn
from jepmon.from_jepsen import spool, turn
from jepmon.from_jepsen.events import Event, Fault
from jepmon.from_jepsen.refusal import TooMany
from jepmon.from_jepsen.write import OF_SHARDS

TOP = pathlib.Path(__file__).resolve().parents[2]


class Spools(unittest.TestCase):
    def test_a_long_one(self) -> None:
        """The rows of the file can be read again, as often as one likes, and by several readers at once."""
        part = edn.Many("#{", ("1", edn.Many("[", ("2",))))
        events = [Event(":ok", number, ":read", "7", part if number % 3 == 0 else "nil", number, number + 1) for number in range(95)]
        kept: List[object] = [*events, Fault(":f :heal, :value nil", 95)]
        with mock.patch.object(spool, "BATCH", 10), mock.patch.object(spool, "HELD", 2):
            made = spool.Spool()
            for event in kept:
                made.append(event)  # type: ignore[arg-type]
            self.assertEqual(len(made), 96)
            self.assertEqual(list(made), kept)
            self.assertEqual([one for pair in zip(made, made) for one in pair], [one for one in kept for _ in range(2)])


class Limits(unittest.TestCase):
    def turned(self, text: str, of_shards: bool) -> Optional[str]:
        try:
            return turn(text, limits=OF_SHARDS).text() if of_shards else turn(text).text()
        except TooMany as refusal:
            return str(refusal)

    def test_operations_that_are_open(self) -> None:
        opened = "".join(f"{{:type :invoke, :f :read, :value [1 nil], :process {100 * number}}}\n" for number in range(70))
        self.assertEqual(self.turned(opened, False), "70 operations are open at once, and jepmon has 64 threads")
        self.assertIn(":process 6900,", self.turned(opened, True) or "")

    def test_processes_that_fit_nothing(self) -> None:
        text = "".join(f"{{:type {kind}, :f :read, :value [1 nil], :process 5}}\n" for kind in (":invoke", ":info", ":invoke", ":ok"))
        for of_shards in (False, True):
            lines = (self.turned(text, of_shards) or "").splitlines()
            self.assertEqual([line.split(", ")[1] for line in lines], [":process 0", ":process 0", ":process 1", ":process 1"])

    def test_keys(self) -> None:
        text = "".join(f"{{:type {kind}, :f :read, :value [{key} nil], :process 0}}\n" for key in range(65_537) for kind in (":invoke", ":ok"))
        self.assertEqual(self.turned(text, False), "it has 65537 keys, and jepmon takes 65536")
        self.assertIn(":value [65536 nil]", self.turned(text, True) or "")

    def test_the_tool_begins_fast(self) -> None:
        """A short history needs no temporary file."""
        event = "{:type :invoke, :f :read, :value [1 nil], :process 0}"
        code = f"import sys, jepmon.from_jepsen as f; f.turn({event!r}); print('tempfile' in sys.modules)"
        ran = subprocess.run([sys.executable, "-S", "-c", code], cwd=TOP / "python", stdout=subprocess.PIPE, universal_newlines=True)
        self.assertEqual(ran.stdout, "False\n")


if __name__ == "__main__":
    unittest.main()
