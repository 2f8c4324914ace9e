"""The course of a run: --phases and --reserve, and many tests by --test-count."""
from __future__ import annotations

import math
import unittest

from jepmon.testing import ServerError, template
from jepmon.testing.course import Course, Stage, reserved_of, stages_of
from jepmon.testing.tool import counted
from tests.python.test_testing_run import Runs

TEMPLATE = template.__file__


class Stages(unittest.TestCase):
    def test_what_the_words_say(self) -> None:
        self.assertEqual(stages_of("5:strikes=off,20:rate=1000:changes=0.5,1.5:limit=200:changes=0"),
                         (Stage(0.0, 5.0, strikes=False), Stage(5.0, 25.0, 1000.0, 0.5), Stage(25.0, 26.5, None, 0.0, 200)))

    def test_what_can_not_be_is_said(self) -> None:
        for text in ("", "0", "x", "5:", "5:rate", "5:rate=x", "5:changes=2", "5:limit=1.5", "5:strikes=maybe", "5:speed=1", "5,,5", "-1",
                     "5:rate=1:rate=2"):
            with self.subTest(text), self.assertRaisesRegex(ServerError, "^--phases .*: each is SECONDS, "):
                stages_of(text)

    def test_what_clients_do_in_each(self) -> None:
        course = Course(1, 400.0, stages_of("5:rate=0:changes=1,5:changes=0.25"))
        first, second, after = (course.next(seconds, 0) for seconds in (1.0, 6.0, 11.0))
        self.assertEqual((first.rate, first.changes), (0.0, 1.0))
        self.assertEqual(second.changes, 0.25)
        self.assertGreater(second.rate, 0.0)
        self.assertGreater(after.rate, 0.0)

    def test_a_limit_holds_for_all_clients_together(self) -> None:
        course = Course(1, 400.0, stages_of("5:limit=3,5"))
        self.assertEqual([course.next(1.0, client).goes_on for client in (0, 1, 2, 3, 0)], [True, True, True, False, False])
        self.assertTrue(course.next(6.0, 0).goes_on)

    def test_calm(self) -> None:
        course = Course(1, 400.0, stages_of("5:strikes=off,5,5:strikes=off"))
        self.assertEqual([course.calm_from(seconds) for seconds in (0.0, 4.9, 5.0, 9.0, 12.0, 15.0)], [0.0, 4.9, 10.0, 10.0, 12.0, math.inf])
        self.assertEqual(Course(1, 400.0).calm_from(3.0), math.inf)


class Reserved(unittest.TestCase):
    def test_clients_that_do_one_thing_alone(self) -> None:
        self.assertEqual(reserved_of("changes=2,reads=1", 5), (1.0, 1.0, 0.0))
        course = Course(1, 400.0, stages_of("5:changes=0.25"), (1.0, 0.0))
        self.assertEqual([course.next(1.0, client).changes for client in range(3)], [1.0, 0.0, 0.25])

    def test_what_can_not_be_is_said(self) -> None:
        for text, said in (("changes=6", "these are 6 clients, and there are 5"), ("writes=1", r"it takes changes=N and reads=N"), ("reads", "takes"),
                           ("reads=-1", "takes"), ("", "takes")):
            with self.subTest(text), self.assertRaisesRegex(ServerError, f"^--reserve {text}: .*{said}"):
                reserved_of(text, 5)


class Whole(Runs):
    def test_phases_of_a_run(self) -> None:
        ran = self.ran(TEMPLATE, "--phases", "1:strikes=off:changes=1,2:rate=0,1:strikes=off:changes=0", "--reserve", "reads=1",
                       "--nemesis", "kill:lasting=0.2:rest=0.1", "--min-ok", "1")
        self.assertEqual((ran.returncode, ran.stderr), (0, ""), ran.stdout)
        self.assertIn(" 4 seconds, ", ran.stdout.splitlines()[0])
        lines = (self.room / "runs" / "latest" / "part-0001" / "history.edn").read_text().splitlines()
        first = next(line for line in lines if line.startswith("{"))
        begun = next(line for line in lines if "begin-fault" in line)
        self.assertGreaterEqual(self.time_of(begun) - self.time_of(first), 0.9)

    @staticmethod
    def time_of(line: str) -> float:
        return float(line.rpartition(":time ")[2].rstrip("}")) / 1e9

    def test_many_tests_have_a_summary(self) -> None:
        ran = self.ran(TEMPLATE, "--time", "1", "--nemesis", "none", "--min-ok", "1", "--test-count", "3", "--seed", "7")
        self.assertEqual((ran.returncode, ran.stderr), (0, ""), ran.stdout)
        self.assertRegex("\n".join(ran.stdout.splitlines()[-4:]), r"^seed 7: legal \(.*\)\nseed 8: legal \(.*\)\nseed 9: legal \(.*\)\n"
                         r"3 of 3 tests: 3 legal$")

    def test_the_worst_one_is_the_status(self) -> None:
        ran = self.ran(TEMPLATE, "--time", "60", "--inject-bug", "forgetful", "--test-count", "2")
        self.assertEqual(ran.returncode, 1, ran.stdout)
        self.assertEqual(ran.stdout.splitlines()[-1], "2 of 2 tests: 2 illegal")

    def test_each_verdict_is_counted_by_its_name(self) -> None:
        self.assertEqual(counted(["seed 1: lost 3 messages: gone (runs/1)\n", "seed 2: crashed n1: it has died (runs/2)\n", "seed 3: illegal key 1 (x)\n",
                                  "seed 4: lost 1 messages (runs/4)\n", "seed 5: no verdict: n1 was not ready\n", "seed 6: legal (runs/6)\n"]),
                         "1 legal, 1 illegal, 2 lost, 1 crashed, 1 without a verdict")
        self.assertEqual(counted([]), "none ended")

    def test_one_without_a_verdict(self) -> None:
        ran = self.ran(TEMPLATE, "--time", "1", "--nemesis", "none", "--min-ok", "100000", "--test-count", "2")
        self.assertEqual(ran.returncode, 3, ran.stdout)
        self.assertEqual(ran.stdout.splitlines()[-1], "2 of 2 tests: 2 without a verdict")


del Runs  # its tests are those of another file


if __name__ == "__main__":
    unittest.main()
