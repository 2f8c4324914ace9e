"""The answer of a missing key in a live test, and the first values of its keys."""
from __future__ import annotations

import unittest
from typing import Any

from jepmon import Illegal, LongMonitor, Monitor
from tests.python.monitored import Monitored


class Missing(Monitored):
    def test_an_answer_that_means_a_missing_key(self) -> None:
        for answer in ("", 0, -1, "None", False, b""):
            with Monitor(self.program, absent=answer) as monitor:
                for value, found in ((None, answer), (5, 5), (None, answer)):
                    if found == 5 or monitor.length > 4:
                        with monitor.write(1, value):
                            pass
                    with monitor.read(1) as op:
                        op.value = found  # type: ignore[assignment]
            with self.assertRaises(Illegal), Monitor(self.program, absent=answer) as monitor:
                with monitor.write(1, 5):
                    pass
                with monitor.read(1) as op:
                    op.value = answer  # type: ignore[assignment]

    def test_one_of_another_type_is_a_value(self) -> None:
        with self.assertRaises(Illegal), Monitor(self.program, absent=False) as monitor:
            with monitor.read(1) as op:
                op.value = 0

    def test_writing_it_deletes(self) -> None:
        with Monitor(self.program, absent=0, model="cas-register") as monitor:
            with monitor.write(1, 5):
                pass
            with monitor.write(1, 0):
                pass
            with monitor.cas(1, 0, 7):
                pass
            with monitor.read(1) as op:
                op.value = 7

    def test_an_empty_queue(self) -> None:
        with Monitor(self.program, model="fifo-queue", absent="") as monitor:
            with monitor.dequeue(1) as op:
                op.value = ""  # type: ignore[assignment]
            self.assertEqual(op.outcome, "fail")

    def test_what_keys_hold_at_first(self) -> None:
        def reads(answer: Any, **said: Any) -> None:
            with Monitor(self.program, **said) as monitor:
                with monitor.read(1) as op:
                    op.value = answer

        reads(3, initial=3)
        reads(None, initial=None)
        reads("", initial="", absent="")
        for answer, said in ((None, {"initial": 3}), (4, {"initial": 3}), (3, {})):
            with self.assertRaises(Illegal):
                reads(answer, **said)
        with self.assertRaisesRegex(TypeError, "jepmon takes integers, not 'x'"):
            reads(1, initial="x")

    def test_the_same_of_a_test_without_an_end(self) -> None:
        with LongMonitor(self.program, initial=3, absent="") as monitor:
            register = monitor.fresh()
            with register.read() as op:
                op.value = 3
            with register.write(None):
                pass
            with register.read() as op:
                op.value = ""  # type: ignore[assignment]
        self.assertEqual(monitor.close(), "legal")


if __name__ == "__main__":
    unittest.main()
