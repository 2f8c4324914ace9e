"""The cause of a verdict names the fault that came before what it speaks of."""
from __future__ import annotations

import unittest
from typing import List

from jepmon import history
from jepmon.causes import cause
from jepmon.causes.beside import before
from jepmon.history import fault_notes as notes
from jepmon.history.fault_notes import OVER, Fault
from jepmon.program import Options, ProgramError, check, find_program

REGISTER = """\
{:type :invoke, :process 0, :f :write, :value [7 5], :time 1000000000}
{:type :ok, :process 0, :f :write, :value [7 5], :time 1100000000}
#_{:type :info, :process :nemesis, :f :begin-fault, :value "n1 is down, by kill -9 [kill n1, process]", :time 1400000000}
{:type :invoke, :process 0, :f :write, :value [7 6], :time 1450000000}
{:type :ok, :process 0, :f :write, :value [7 6], :time 1470000000}
#_{:type :info, :process :nemesis, :f :end-fault, :value "n1 is down, by kill -9 [kill n1, process]", :time 1500000000}
{:type :invoke, :process 1, :f :read, :value [7 nil], :time 1600000000}
{:type :ok, :process 1, :f :read, :value [7 5], :time 1700000000}
"""


class Causes(unittest.TestCase):
    def setUp(self) -> None:
        try:
            find_program()
        except ProgramError as fault:
            self.skipTest(str(fault))

    def said(self, text: str) -> List[str]:
        options = Options(2)
        found = cause.explain(history.read_history(text), check(text.encode(), options), options, faults=notes.faults_of(text.split("\n")))
        assert found is not None
        return found.sentences

    def test_with_times(self) -> None:
        said = self.said(REGISTER)
        self.assertIn('5 was last possible just before event 3, the :ok of client 0\'s write of 6, 0.07 s after "n1 is down, by kill -9" began.',
                      said)
        self.assertEqual(said[-1], 'Event 5 came 0.30 s after "n1 is down, by kill -9" began, 0.20 s after it ended.')

    def test_without_faults(self) -> None:
        said = self.said("".join(line + "\n" for line in REGISTER.split("\n") if not line.startswith("#_")))
        self.assertIn("5 was last possible just before event 3, the :ok of client 0's write of 6.", said)
        self.assertFalse([sentence for sentence in said if "after" in sentence])


class Beside(unittest.TestCase):
    def event(self, index: int, **fields: int) -> history.Event:
        return history.Event(index, "ok", 0, "read", 7, 5, index + 1, "", fields)

    def test_without_times_the_order_is_told(self) -> None:
        faults = [Fault("cut", 3, 0, 6, 0), Fault("kill n1", 8, 0, 8, 0), Fault(OVER, 9, 0, 9, 0)]
        for index, said in ((2, ""), (3, 'after "cut" began'), (5, 'after "cut" began'), (7, 'after "cut" ended'), (12, 'after "kill n1"')):
            self.assertEqual(before(faults, self.event(index)), said, index)
        self.assertEqual(before([Fault("cut", 3, 50, None, None)], self.event(5)), 'after "cut" began')  # the event has no time
