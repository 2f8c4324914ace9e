"""A client's mistakes with a monitor: an exception names them, instead of a verdict on the store."""
from __future__ import annotations

import contextlib
import copy
import decimal
import io
import multiprocessing
import os
import pickle
import time
import unittest
from multiprocessing.connection import Connection
from typing import Callable, List

from jepmon import ABSENT, Illegal, LongMonitor, Monitor
from jepmon.history.kinds import MODELS
from tests.python.monitored import Monitored

FORK = multiprocessing.get_context("fork")


class Attributes(Monitored):
    """An operation has a value, if it is a read or a dequeue, and nothing else that can be set."""

    def test_a_value_of_what_answers_none(self) -> None:
        for model, name in ((model, name) for model, names in MODELS.items() for name in names):
            with Monitor(self.program, model=model) as monitor:
                one = {"write": lambda: monitor.write(0, 1), "cas": lambda: monitor.cas(0, 1, 2), "add": lambda: monitor.add(0, 1),
                       "enqueue": lambda: monitor.enqueue(0, 1), "acquire": monitor.acquire, "release": monitor.release,
                       "read": lambda: monitor.read(0), "dequeue": lambda: monitor.dequeue(0)}[name]()
                if name in ("read", "dequeue"):
                    one.value = 1
                else:
                    with self.assertRaisesRegex(AttributeError, rf"^{name} has no op.value: call op.fail\(\) if"):
                        one.value = False

    def test_what_an_operation_does_not_have(self) -> None:
        with Monitor(self.program) as monitor:
            for name, said in (("outcome", r"^op.outcome says how the block ended: call op.fail\(\)"), ("told", "^op.told can't be set"),
                               ("key", "^op.key can't be set"), ("fail", "^op.fail can't be set"),
                               ("status", r"^an operation has no status: call op.fail\(\).*op.value is the answer of a read or a dequeue$")):
                with self.assertRaisesRegex(AttributeError, said), monitor.write(0, 1) as op:
                    setattr(op, name, "fail")
                self.assertEqual(op.outcome, "info")

    def test_a_value_that_comes_too_late(self) -> None:
        with Monitor(self.program) as monitor:
            with monitor.read(0) as op:
                op.value = None
            with self.assertRaisesRegex(AttributeError, "the block of this read has ended: set op.value in it"):
                op.value = 1
            with self.assertRaisesRegex(ValueError, "the block of this read has ended already"):
                op.__exit__(None, None, None)

    def test_a_client_that_catches_it_is_told_again(self) -> None:
        """Else a cas that the store refused would count as one that took place."""
        for expected in ((), (Exception,)):
            with Monitor(self.program, model="cas-register", expected=expected) as monitor:
                with monitor.write(0, 1):
                    pass
                with self.assertRaisesRegex(AttributeError, "cas has no op.value"):
                    with monitor.cas(0, 7, 2) as op:
                        try:
                            op.value = False
                        except AttributeError:
                            pass
                self.assertEqual(op.outcome, "info")
                with monitor.read(0) as read:
                    read.value = 1

    def test_the_same_of_a_test_without_an_end(self) -> None:
        with LongMonitor(self.program, model="mutex") as monitor:
            lock = monitor.fresh()
            for name, said in (("value", "^acquire has no op.value"), ("outcome", "op.outcome says"), ("name", "op.name can't be set"),
                               ("object", "op.object can't be set"), ("status", "an operation has no status")):
                with self.assertRaisesRegex(AttributeError, said), lock.acquire() as op:
                    setattr(op, name, False)
                self.assertEqual(op.outcome, "info")


class Processes(Monitored):
    def in_a_fork(self, work: Callable[[], object]) -> str:
        """The exception in a process that was forked."""
        here, there = FORK.Pipe()

        def told(to: Connection) -> None:
            try:
                to.send(f"gave {work()}")
            except BaseException as fault:
                to.send(f"{type(fault).__name__}: {fault}")
            os._exit(0)

        process = FORK.Process(target=told, args=(there,))
        process.start()
        try:
            self.assertTrue(here.poll(20), "no answer from the forked process")
            return str(here.recv())
        finally:
            process.join(20)

    def test_a_forked_process_is_refused(self) -> None:
        """Its operations would not be known here, and the first on a key would begin the key once more."""
        with Monitor(self.program) as monitor:
            def read() -> None:
                with monitor.read(1) as op:
                    op.value = 5

            for work in (read, monitor.close, lambda: monitor.counts, lambda: monitor.begin(2, 1), lambda: monitor.note("kill"),
                         lambda: monitor.set_model(1, "set"), lambda: monitor.run(lambda number: read(), 1)):
                said = self.in_a_fork(work)
                self.assertRegex(said, f"^ValueError: this monitor is of process {os.getpid()}, and this is process [0-9]+: let threads of")
            with monitor.write(1, 5):
                pass
            read()
        self.assertEqual(monitor.close(), "legal")

    def test_the_same_of_a_test_without_an_end(self) -> None:
        with LongMonitor(self.program) as monitor:
            register = monitor.fresh()

            def write() -> None:
                with register.write(1):
                    pass

            for work in (write, monitor.close, lambda: monitor.length, lambda: register.objects, lambda: monitor.note("kill")):
                self.assertRegex(self.in_a_fork(work), "^ValueError: this monitor is of process")
            write()
        self.assertEqual(monitor.close(), "legal")

    def test_it_is_refused_in_the_middle_of_an_operation_too(self) -> None:
        """Also where another thread held the lock as the process was forked, which is never free there."""
        monitor = Monitor(self.program)
        with monitor:
            with monitor._telling.lock:
                self.assertRegex(self.in_a_fork(monitor.read(1).__enter__), "^ValueError: this monitor is of process")
            one = monitor.write(1, 1)
            with one:
                self.assertRegex(self.in_a_fork(lambda: one.__exit__(None, None, None)), "^ValueError: this monitor is of process")

    def test_a_forked_process_that_ends_leaves_the_test_as_it_is(self) -> None:
        with Monitor(self.program, out=self.room) as monitor:
            with monitor.write(1, 1):
                pass
            self.assertEqual(self.in_a_fork(lambda: monitor.__exit__(SystemExit, SystemExit(0), None)), "gave None")
            with monitor.read(1) as op:
                op.value = 1
        self.assertEqual(monitor.close(), "legal")

    def test_one_that_goes_on_does_not_keep_the_program(self) -> None:
        """It has a copy of the pipe at whose end the program ends."""
        go = FORK.Event()
        for monitor in (Monitor(self.program), LongMonitor(self.program)):
            process = FORK.Process(target=go.wait)
            process.start()
            began = time.monotonic()
            self.assertEqual(monitor.close(), "legal")
            self.assertLess(time.monotonic() - began, 5.0)
        go.set()
        process.join(20)

    def test_none_is_sent_or_copied(self) -> None:
        for monitor in (Monitor(self.program), LongMonitor(self.program)):
            for send in (pickle.dumps, copy.copy):
                with self.assertRaisesRegex(TypeError, f"a {type(monitor).__name__} can't be copied or sent to another process: let threads"):
                    send(monitor)  # type: ignore[operator]
            monitor.close()


class Nothing(Monitored):
    def said(self, monitor: "Monitor | LongMonitor", outcome: str) -> str:
        """The text on standard error if each operation ends so."""
        with contextlib.redirect_stderr(io.StringIO()) as said, monitor:
            for _ in range(3):
                with monitor.write(1, 1) if isinstance(monitor, Monitor) else monitor.fresh().write(1) as op:
                    getattr(op, outcome, lambda: None)()
        monitor.close()
        return said.getvalue()

    def test_where_nothing_worked_it_is_said_once(self) -> None:
        for make in (Monitor, LongMonitor):
            for outcome, wanted in (("fail", "none of 3 operations was ok, so nothing was judged"), ("info", "none of 3"), ("ok", "^$")):
                said = self.said(make(self.program), outcome)
                self.assertRegex(said, wanted)
                self.assertEqual(said.count("\n"), 0 if outcome == "ok" else 1, said)


class Numbers(Monitored):
    def numbers(self, things: List[object]) -> List[int]:
        with Monitor(self.program) as monitor:
            return [monitor.number(thing) for thing in things]  # type: ignore[arg-type]

    def test_what_a_store_tells_apart_has_numbers_of_its_own(self) -> None:
        things: List[object] = [True, 1, 1.0, False, 0, 0.0, "1", b"1", decimal.Decimal(1), (1, 2), (True, 2), (1.0, 2), ((1,),), ((True,),),
                                frozenset({1}), frozenset({True}), None]
        self.assertEqual(self.numbers(things), list(range(len(things))))
        self.assertEqual(self.numbers([*things, *things])[len(things):], list(range(len(things))))

    def test_what_is_equal_has_one(self) -> None:
        class Text(str):
            pass

        self.assertEqual(self.numbers(["a", Text("a"), (1, "b"), (1, Text("b"))]), [0, 0, 1, 1])

    def test_what_is_unequal_to_itself_is_refused(self) -> None:
        with self.assertRaisesRegex(ValueError, "nan is not equal to itself"):
            self.numbers([float("nan")])

    def test_true_is_not_what_1_is(self) -> None:
        with self.assertRaises(Illegal), Monitor(self.program) as monitor:
            with monitor.write(1, monitor.number(1)):
                pass
            with monitor.read(1) as op:
                op.value = monitor.number(True)

    def test_numbers_and_plain_integers_of_one_key(self) -> None:
        with Monitor(self.program) as monitor:
            with monitor.write(1, monitor.number("a")):
                pass
            for bring in (lambda: monitor.write(1, 0), lambda: monitor.cas(1, 0, 1), lambda: monitor.add(1, 0)):
                with self.assertRaisesRegex(ValueError, "is not by Monitor.number, and the values of key 1 before it are, so that two may be"):
                    bring()
            with monitor.write(2, 0):
                pass
            with self.assertRaisesRegex(ValueError, "0 is by Monitor.number, and the values of key 2 before it not"):
                monitor.write(2, monitor.number("a"))
            for missing in (None, ABSENT):
                with monitor.write(1, missing), monitor.write(2, missing):
                    pass


if __name__ == "__main__":
    unittest.main()
