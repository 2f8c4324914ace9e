"""How an exception ends an operation of a live test."""
from __future__ import annotations

import unittest
from typing import Type

from jepmon import Failed, Illegal, Monitor
from jepmon.live.outcome_rules import Endings, Exceptions, endings, outcome_of
from tests.python.monitored import Monitored


class Error(Exception):
    pass


class Special(Error):
    pass


class Other(Exception):
    pass


class Both(Special, Other):
    pass


class Outcomes(unittest.TestCase):
    def of(self, kind: Type[BaseException], expected: Exceptions, failed: Exceptions) -> str:
        return outcome_of(kind(), Endings(expected, failed)) or "goes on"

    def test_one_that_is_in_neither_goes_on(self) -> None:
        self.assertEqual(self.of(KeyError, (OSError,), (Error,)), "goes on")
        self.assertEqual(self.of(KeyboardInterrupt, (Exception,), (Error,)), "goes on")

    def test_one_that_is_in_one(self) -> None:
        self.assertEqual(self.of(TimeoutError, (OSError,), ()), "info")
        self.assertEqual(self.of(ConnectionRefusedError, (), (OSError,)), "fail")
        self.assertEqual(self.of(Failed, (), ()), "fail")

    def test_the_more_special_one_decides(self) -> None:
        refused = (ConnectionRefusedError,)
        self.assertEqual(self.of(ConnectionRefusedError, (OSError,), refused), "fail")
        self.assertEqual(self.of(ConnectionResetError, (OSError,), refused), "info")
        self.assertEqual(self.of(TimeoutError, (TimeoutError,), (OSError,)), "info")
        self.assertEqual(self.of(Special, (Exception, Error), (Special,)), "fail")
        self.assertEqual(self.of(Failed, (Exception,), ()), "fail")

    def test_where_none_is_more_special_it_is_an_info(self) -> None:
        self.assertEqual(self.of(Both, (Other,), (Special,)), "info")
        self.assertEqual(self.of(Both, (Special,), (Other,)), "info")
        self.assertEqual(self.of(Both, (Other, Error), (Special,)), "info")

    def test_a_timeout_or_a_cut_connection_is_a_fail_only_by_such_a_class(self) -> None:
        class ReadTimeout(Error):
            pass

        for kind, wide in ((TimeoutError, OSError), (ConnectionResetError, ConnectionError), (BrokenPipeError, OSError),
                           (ReadTimeout, Error), (TimeoutError, Exception)):
            self.assertEqual(self.of(kind, (), (wide,)), "info", kind)
            self.assertEqual(self.of(kind, (), (kind,)), "fail", kind)
            self.assertEqual(self.of(kind, (), (wide, kind)), "fail", kind)
        self.assertEqual(self.of(ConnectionRefusedError, (), (OSError,)), "fail")

    def test_a_class_in_both_is_refused(self) -> None:
        with self.assertRaisesRegex(ValueError, "OSError is in expected and in failed"):
            endings((TimeoutError, OSError), (OSError,))

    def test_what_is_no_tuple_of_exceptions_is_refused(self) -> None:
        for wrong in ([OSError], OSError, (OSError(),), ("OSError",)):
            with self.assertRaisesRegex(TypeError, "failed is a tuple of classes of exceptions"):
                endings((), wrong)  # type: ignore[arg-type]


class Told(Monitored):
    def test_a_refused_connection_is_a_fail_and_goes_no_further(self) -> None:
        with Monitor(self.program, failed=(ConnectionRefusedError,), expected=(OSError,)) as monitor:
            with monitor.write(0, 1) as refused:
                raise ConnectionRefusedError
            with monitor.write(0, 2) as slow:
                raise TimeoutError
            with self.assertRaises(KeyError):
                with monitor.write(0, 3):
                    raise KeyError
        self.assertEqual((refused.outcome, slow.outcome), ("fail", "info"))
        self.assertEqual(monitor.counts, {"write": {"fail": 1, "info": 2}})
        self.assertEqual(monitor.timeouts(0), 2)

    def test_what_was_refused_must_not_be_read(self) -> None:
        with self.assertRaises(Illegal) as caught:
            with Monitor(self.program, failed=(ConnectionRefusedError,)) as monitor:
                with monitor.write(0, 1):
                    raise ConnectionRefusedError
                with monitor.read(0) as op:
                    op.value = 1
        self.assertIn("recorded as a fail: did it take place?", str(caught.exception))


if __name__ == "__main__":
    unittest.main()
