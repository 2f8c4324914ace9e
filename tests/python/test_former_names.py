"""Former names of options and attributes mean the same as the plainer names that replaced them."""
from __future__ import annotations

import unittest
from typing import List

import jepmon
import jepmon.history.fault_notes
import jepmon.notes
import jepmon.shrink
from jepmon.judge import words
from jepmon.testing import cli_options
from jepmon.testing.server import ALL_STRIKES
from jepmon.testing.strikes.known import STRIKES
from jepmon.testing.strikes.plan import Plan


class Options(unittest.TestCase):
    def test_of_judge(self) -> None:
        for former, plain in ((["--least", "7"], ["--min-ok", "7"]), (["--wide"], ["--decide-over-budget"]),
                              (["--wide-seconds", "7"], ["--decide-seconds", "7"])):
            self.assertEqual(words.given(["FILE", *former]), words.given(["FILE", *plain]))
            self.assertNotEqual(words.given(["FILE", *former]), words.given(["FILE"]))

    def test_of_test(self) -> None:
        for former, plain in ((["--least", "7"], ["--min-ok", "7"]), (["--patience", "7"], ["--startup-timeout", "7"]),
                              (["--plant", "lease"], ["--inject-bug", "lease"])):
            self.assertEqual(cli_options.given(["redis", *former]), cli_options.given(["redis", *plain]))
            self.assertNotEqual(cli_options.given(["redis", *former]), cli_options.given(["redis"]))

    def test_of_strikes(self) -> None:
        def names(text: str, bears: List[str]) -> List[str]:
            return [item.name for item in Plan(text, 3, STRIKES, bears).drawn]

        self.assertEqual(names("part,kill", []), ["partition", "kill"])
        self.assertEqual(names("all", ["part", "pause"]), ["partition", "pause"])
        self.assertIn("partition", ALL_STRIKES)


class Python(unittest.TestCase):
    def test_all_names_of_the_package(self) -> None:
        for name in jepmon.__all__:
            self.assertTrue(getattr(jepmon, name) is not None, name)
        self.assertIs(jepmon.NotLegal, jepmon.JepmonError)
        self.assertEqual(jepmon.JepmonError.__name__, "JepmonError")

    def test_attributes(self) -> None:
        with jepmon.Monitor(budget=1, unknown="drop") as monitor:
            for number in range(3):
                with monitor.write(0, number) as op:
                    pass
                with monitor.write(0, number) as first, monitor.write(0, number + 1) as second:
                    pass
        self.assertEqual((monitor.dropped, list(monitor.dropped)), (monitor.set_aside, [0]))
        self.assertEqual([(one.told, one.recorded) for one in (op, first, second)], [(False, False)] * 3)
        with jepmon.LongMonitor() as long:
            with long.fresh("register").write(1) as given:
                pass
        self.assertEqual((long.parts, long.dropped, given.told), (long.segments, long.set_aside, given.recorded))
        self.assertEqual((long.segments, long.set_aside, given.recorded), (1, 0, True))

    def test_modules(self) -> None:
        self.assertIs(jepmon.notes.Fault, jepmon.history.fault_notes.Fault)
        self.assertEqual(jepmon.notes.folded("kill\nn1"), jepmon.history.fault_notes.folded("kill\nn1"))
        self.assertTrue(callable(jepmon.shrink.smallest))


if __name__ == "__main__":
    unittest.main()
