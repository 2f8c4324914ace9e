"""Notes of faults are in the log and in the folder of the run. No verdict depends on them."""
from __future__ import annotations

import contextlib
import gc
import io
import subprocess
import unittest
import weakref
from typing import List

from jepmon import Illegal, Monitor, Refused
from jepmon.history import read_history
from jepmon.history.fault_notes import LONGEST, Fault, Note, faults_of, folded, note_line, note_of
from jepmon.live.sender import Telling
from tests.python.monitored import Monitored


class Notes(unittest.TestCase):
    def test_a_note_is_read_as_it_was_written(self) -> None:
        for text in ("kill n1", 'a "name" \\ and \\" more', "\\", '"', "é漢"):
            self.assertEqual(note_of(note_line("note", text, 5) + "\n"), Note("note", text, 5))

    def test_it_is_on_one_line(self) -> None:
        self.assertEqual(folded(" kill\tn1\r\n  and\u2028n2\x85"), "kill n1 and n2")
        self.assertEqual(folded("\ud800"), "?")

    def test_its_length(self) -> None:
        for text in ("", " \n", "x" * (LONGEST + 1)):
            with self.assertRaisesRegex(ValueError, "a note has 1 to 1000 characters"):
                folded(text)

    def test_what_is_no_note(self) -> None:
        for line in ("", "; note", "#_{:a 1}", "{:type :info}", '#_{:type :info, :process :nemesis, :f :note, :value 5, :time 1}'):
            self.assertIsNone(note_of(line))

    def test_faults(self) -> None:
        lines = ["; begun", note_line("begin-fault", "a", 1), "{", note_line("begin-fault", "a", 2), "{", "{",
                 note_line("end-fault", "a", 3), note_line("note", "b", 4), note_line("end-fault", "c", 5)]
        self.assertEqual(faults_of(lines), [Fault("a", 0, 1, None, None), Fault("a", 1, 2, 3, 3), Fault("b", 3, 4, 3, 4)])


class Noted(Monitored):
    def stale(self, monitor: Monitor) -> None:
        """A kill, and then a read that is wrong, while a server is cut off."""
        with monitor.write(7, 1):
            pass
        monitor.note("kill n1")
        with monitor.fault('cut "n2" off'), monitor.read(7) as op:
            op.value = None

    def test_they_stand_between_the_events(self) -> None:
        log = io.StringIO()
        with self.assertRaises(Illegal):
            with Monitor(self.program, log=log, out=self.room) as monitor:
                self.stale(monitor)
        assert monitor.folder is not None
        history = (monitor.folder / "history.edn").read_text()
        for text in (history, log.getvalue()):
            faults = faults_of(text.split("\n"))
            self.assertEqual([(fault.text, fault.begin, fault.end) for fault in faults], [("kill n1", 4, 4), ('cut "n2" off', 4, 6)])
            self.assertTrue(all(fault.end_time is not None and fault.begin_time <= fault.end_time for fault in faults))
        self.assertEqual(self.verdict_of(monitor.folder / "history.edn"), "illegal key 7 index 5")
        self.assertEqual(len(read_history(history)), 6, "the reader of histories passes over them")

    def test_script_passes_over_them(self) -> None:
        log = io.StringIO()
        with self.assertRaises(Illegal):
            with Monitor(self.program, log=log) as monitor:
                self.stale(monitor)
        ran = subprocess.run([self.program, "script", "--concurrency", "64"], input=log.getvalue().encode(), stdout=subprocess.PIPE)
        self.assertEqual(ran.stdout.decode().splitlines(), ["legal"] * 5 + ["illegal key 7 index 5"])

    def test_the_log_has_times(self) -> None:
        log = io.StringIO()
        with Monitor(self.program, log=log) as monitor:
            monitor.set_budget(7, 10)
            with monitor.write(7, 1):
                pass
        lines = log.getvalue().splitlines()
        self.assertEqual((lines[0], lines[-1]), ("[:budget 7 10]", "[:verdict]"), "commands have none")
        self.assertTrue(all(" :time " in line for line in lines[1:-1]))

    def test_a_fault_ends_with_its_block(self) -> None:
        log = io.StringIO()
        with self.assertRaises(KeyError):
            with Monitor(self.program, log=log) as monitor, monitor.fault("kill n1"):
                raise KeyError
        self.assertEqual([fault.end for fault in faults_of(log.getvalue().split("\n"))], [0])

    def test_no_fault_begins_once_the_test_has_ended(self) -> None:
        monitor = Monitor(self.program)
        self.addCleanup(monitor.close)
        done: List[str] = []
        with self.assertRaises(Illegal):
            with monitor.fault("first"):
                self.stale(monitor)
        with self.assertRaises(Illegal):
            with monitor.fault("second"):
                done.append("second")
        monitor.note("a moment is noted all the same")
        self.assertEqual(done, [])
        monitor.close()
        monitor.note("and after the end it is not, and raises nothing")
        with self.assertRaises(ValueError):
            with monitor.fault("third"):
                done.append("third")

    def test_a_thread_of_faults_ends_with_the_clients(self) -> None:
        def work(number: int) -> None:
            while number == 0:
                with monitor.fault("kill n1"):
                    pass
            self.stale(monitor)

        with self.assertRaises(Illegal), Monitor(self.program) as monitor:
            monitor.run(work, 2)

    def test_a_text_that_is_refused(self) -> None:
        with Monitor(self.program) as monitor:
            for text in ("", "x" * 1001):
                with self.assertRaises(ValueError):
                    monitor.note(text)
                with self.assertRaises(ValueError):
                    monitor.fault(text).__enter__()


class Memory(Monitored):
    """Unused objects go at once, without the collector of cycles: a test may make many monitors."""

    def setUp(self) -> None:
        super().setUp()
        gc.collect()
        gc.disable()
        self.addCleanup(gc.enable)

    def dropped(self) -> "weakref.ref[Telling]":
        with Monitor(self.program, budget=3, by_ends=True, unknown="drop") as monitor:
            with monitor.write(0, 1), monitor.write(0, 2):
                pass
        assert monitor.dropped[0].__traceback__ is None and monitor.dropped[0].__context__ is None
        return weakref.ref(monitor._telling)

    def illegal(self) -> "weakref.ref[Telling]":
        monitor = Monitor(self.program)
        with contextlib.suppress(Illegal), monitor:
            with monitor.read(7) as op:
                op.value = 5
        return weakref.ref(monitor._telling)

    def without_program(self) -> "weakref.ref[Telling]":
        monitor = Monitor(self.program)
        child = monitor._telling._exchange._script._child
        child.kill()
        child.wait()
        with contextlib.suppress(Refused), monitor:
            with monitor.read(7) as op:
                op.value = 5
        return weakref.ref(monitor._telling)

    def broken_off(self) -> "weakref.ref[Telling]":
        def work(number: int) -> None:
            with monitor.write(number, 1):
                raise KeyError(number)

        monitor = Monitor(self.program)
        with contextlib.suppress(KeyError), monitor:
            monitor.run(work, 3)
        return weakref.ref(monitor._telling)

    def test_a_key_that_is_dropped_keeps_nothing(self) -> None:
        self.assertIsNone(self.dropped()())

    def test_what_was_raised_keeps_nothing(self) -> None:
        self.assertIsNone(self.illegal()())
        self.assertIsNone(self.broken_off()())
        self.assertIsNone(self.without_program()())


if __name__ == "__main__":
    unittest.main()
