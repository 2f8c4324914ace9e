"""A live test over several programs, where something is in the way: options, a program that ends, a disk that is full. And its memory."""
from __future__ import annotations

import gc
import os
import pathlib
import signal
import subprocess
import sys
import threading
import unittest
import weakref
from typing import Dict, List

from jepmon import Illegal, LongMonitor, Refused
from jepmon.live.sender import Telling
from jepmon.long.part import Part
from tests.python.monitored import Monitored

TOP = pathlib.Path(__file__).resolve().parents[2]
EVENTS = int(os.environ.get("JEPMON_LONG_EVENTS", "150000"))  # of the test of memory

FULL = """
import resource, sys
from jepmon import Illegal, LongMonitor
monitor = LongMonitor(sys.argv[1], out=sys.argv[2], events=100)
register = monitor.fresh()
for value in range(400):
    if value == 100:  # from here on a file has room for a line or two
        resource.setrlimit(resource.RLIMIT_FSIZE, (200, 200))
    with register.write(value):
        pass
try:
    with register.read() as op:
        op.value = -1
except Illegal as found:
    print(found.reply)
print(monitor.close())
"""


def child_of(part: Part) -> "subprocess.Popen[bytes]":
    assert part.telling is not None
    return part.telling._exchange._script._child


class Faults(Monitored):
    def write(self, monitor: LongMonitor, times: int = 1) -> None:
        register = monitor.fresh()
        for value in range(times):
            with register.write(value):
                pass

    def test_options_that_are_refused(self) -> None:
        for words, fault in (({"events": 0}, ValueError), ({"events": 786433}, ValueError), ({"keys": 65537}, ValueError),
                             ({"concurrency": 65}, ValueError), ({"keep": -1}, ValueError), ({"budget": 0}, Refused),
                             ({"model": "stack"}, Refused), ({"failed": (OSError,), "expected": (OSError,)}, ValueError),
                             ({"program": "/nowhere/jepmon"}, FileNotFoundError)):
            with self.assertRaises(fault):
                LongMonitor(**{"program": self.program, "out": self.room / "runs", **words})  # type: ignore[arg-type]
        self.assertFalse((self.room / "runs").exists(), "no folder is left")
        with LongMonitor(self.program) as monitor:
            with self.assertRaisesRegex(ValueError, "a model is one of register, "):
                monitor.fresh("stack")

    def test_used_after_its_end(self) -> None:
        with LongMonitor(self.program) as monitor:
            register = monitor.fresh()
            with register.write(1) as op:
                one = op.object
        for operation in (register.write(2), one.read()):
            with self.assertRaisesRegex(ValueError, "the monitor is closed"):
                operation.__enter__()
        with self.assertRaisesRegex(ValueError, "the monitor is closed"):
            with monitor.fault("late"):
                pass
        with self.assertRaisesRegex(ValueError, "an object only in its block"):
            register.read().name
        with self.assertRaisesRegex(ValueError, "had its block already"):
            op.__enter__()
        self.assertEqual((register.objects, monitor.close()), ([], "legal"))

    def test_closed_by_several_threads(self) -> None:
        """None of them has a verdict before each program has given its own."""
        for _ in range(5):
            monitor = LongMonitor(self.program, concurrency=1, budget=3, by_ends=True)
            register = monitor.fresh()
            operations = [register.write(value).__enter__() for value in range(4)]
            for operation in operations:
                operation.__exit__(None, None, None)
            child_of(monitor._parts.running[-1]).kill()
            said: List[str] = []
            closers = [threading.Thread(target=lambda: said.append(monitor.close())) for _ in range(4)]
            for closer in closers:
                closer.start()
            for closer in closers:
                closer.join(60)
            self.assertEqual((len(said), len(set(said))), (4, 1))
            self.assertIn("by signal 9 of part-0004", said[0])

    def test_open_at_its_end(self) -> None:
        monitor = LongMonitor(self.program)
        operation = monitor.fresh().write(1).__enter__()
        self.assertEqual(monitor.close(), "legal")
        with self.assertRaisesRegex(ValueError, "the monitor is closed"):
            operation.__exit__(None, None, None)

    def test_a_program_that_is_killed(self) -> None:
        with self.assertRaises(Refused) as caught:
            with LongMonitor(self.program, events=40, out=self.room) as monitor:
                self.write(monitor, 50)
                child_of(monitor._parts.running[-1]).kill()
                self.write(monitor)
        self.assertIn("has ended, by signal 9", str(caught.exception))
        self.assertRegex(monitor.close(), "has ended, by signal 9 of part-000[0-9]$")
        assert monitor.folder is not None
        self.assertEqual((monitor.folder / "verdict.txt").read_text(), monitor.close() + "\n")
        with self.assertRaises(ValueError):
            self.write(monitor)

    def test_a_program_that_is_killed_after_its_last_event(self) -> None:
        """Nobody tells it any more, and its verdict is missed."""
        with self.assertRaisesRegex(Refused, "has ended, by signal 9"):
            with LongMonitor(self.program, out=self.room) as monitor:
                self.write(monitor)
                os.kill(child_of(monitor._parts.running[0]).pid, signal.SIGKILL)
        self.assertIn("has ended, by signal 9", monitor.close())

    def test_a_program_that_can_not_be_begun_later_on(self) -> None:
        program = self.room / "jepmon"
        program.write_text(f'#!/bin/sh\nexec {self.program} "$@"\n')
        program.chmod(0o755)
        with self.assertRaises(OSError):
            with LongMonitor(program, events=40) as monitor:
                self.write(monitor)
                program.unlink()
                self.write(monitor, 100)
        self.assertRegex(monitor.close(), "^part 2 of the test can't be begun: ")

    def test_a_store_that_can_not_forget(self) -> None:
        """That is the test's own fault, and raised; the programs are closed all the same, and the verdict stands."""
        def forget(name: str) -> None:
            raise ConnectionError(name)

        with self.assertRaises(ConnectionError):
            with LongMonitor(self.program, concurrency=1, out=self.room, forget=forget) as monitor:
                register = monitor.fresh()
                with register.write(1), register.write(2):
                    pass
                children = [child_of(part) for part in monitor._parts.running]
        self.assertEqual([child.returncode for child in children], [0, 0])
        assert monitor.folder is not None
        self.assertEqual(((monitor.folder / "verdict.txt").read_text(), monitor.close()), ("legal\n", "legal"))

    def test_a_folder_that_can_not_be_made(self) -> None:
        file = self.room / "file"
        file.write_text("")
        with self.assertRaisesRegex(OSError, "the folder of a run can't be made: "):
            LongMonitor(self.program, out=file)

    def test_a_full_disk(self) -> None:
        """The judging goes on, the loss is said once, and no history has a gap."""
        ran = subprocess.run([sys.executable, "-c", FULL, self.program, str(self.room)], stdout=subprocess.PIPE, stderr=subprocess.PIPE,
                             universal_newlines=True, env={**os.environ, "PYTHONPATH": str(TOP / "python")})
        said = [line for line in ran.stderr.splitlines() if line.startswith("jepmon: ")]
        self.assertRegex(ran.stdout, r"^illegal key \d+ index \d+\nillegal key \d+ index \d+ of part-0\d+\n$")
        self.assertEqual(len(said), 1, ran.stderr)
        self.assertRegex(said[0], r"can't be written: File too large; the test goes on without$")
        for part in (self.room / "latest").glob("part-*"):
            self.assertTrue((part / "history.edn").read_text().endswith("\n"))

    def test_of_legal_parts_the_newest_are_kept(self) -> None:
        with LongMonitor(self.program, events=40, out=self.room, keep=2) as monitor:
            self.write(monitor, 200)
        assert monitor.folder is not None
        parts = sorted(path.name for path in monitor.folder.glob("part-*"))
        self.assertEqual(parts, [f"part-{number:04}" for number in (monitor.parts - 1, monitor.parts)])
        self.assertEqual((monitor.folder / "parts.txt").read_text().count(": removed, since it is legal"), monitor.parts - 2)
        self.assertEqual(self.verdict_by(monitor.folder), "legal")

    def test_judged_again_without_a_program(self) -> None:
        with LongMonitor(self.program, out=self.room) as monitor:
            self.write(monitor)
        assert monitor.folder is not None
        ran = subprocess.run([monitor.folder / "judge-again"], stdout=subprocess.PIPE, stderr=subprocess.PIPE, universal_newlines=True,
                             env={**os.environ, "JEPMON": "/nowhere/jepmon"})
        self.assertEqual((ran.returncode, ran.stdout.splitlines()[-1]), (3, "no verdict of part-0001"))


class Memory(Monitored):
    def resident(self) -> int:
        """Bytes of this process."""
        return int(pathlib.Path("/proc/self/statm").read_text().split()[1]) * os.sysconf("SC_PAGE_SIZE")

    def test_a_part_that_is_closed_keeps_nothing(self) -> None:
        """Without the collector of cycles, whatever its objects came to."""
        gc.collect()
        gc.disable()
        self.addCleanup(gc.enable)
        tellings: "List[weakref.ref[Telling]]" = []
        with LongMonitor(self.program, events=40, budget=3, by_ends=True, expected=(TimeoutError,), unknown="drop") as monitor:
            register, lock = monitor.fresh(), monitor.fresh("mutex")
            with lock.acquire() as held:
                pass
            while monitor.parts < 6:
                telling = monitor._parts.running[-1].telling
                assert telling is not None
                if not any(known() is telling for known in tellings):
                    tellings.append(weakref.ref(telling))
                with register.write(1), register.write(2):
                    pass
                with register.write(3):
                    raise TimeoutError
                del telling
            self.assertGreater(monitor.dropped, 4)
            self.assertEqual([known() for known in tellings[:3]], [None, None, None])
            self.assertTrue(held.object.is_over, "a client may hold an object, which keeps none of it")

    def test_memory_is_flat(self) -> None:
        """Over scores of programs, with objects that are dropped and operations that time out."""
        store: Dict[str, int] = {}
        taken: List[int] = []
        with LongMonitor(self.program, events=2000, budget=7, by_ends=True, expected=(TimeoutError,), unknown="drop",
                         forget=lambda name: store.pop(name, None)) as monitor:
            registers, value = [monitor.fresh() for _ in range(10)], 0
            while monitor.length < EVENTS:
                value += 1
                register = registers[value % 10]
                with register.write(value) as op:
                    store[op.name] = value
                    if value % 100 == 0:
                        raise TimeoutError
                with register.read() as op:
                    op.value = store.get(op.name)
                if value % 500 == 0:
                    with register.write(value), register.write(value + 1), register.write(value + 2):
                        pass
                if value % 1000 == 0:
                    taken.append(self.resident())
            self.assertGreater(monitor.dropped, 0)
        self.assertIsNone(monitor.failure)
        third = len(taken) // 3
        self.assertLess(max(taken[-third:]) - max(taken[:third]), 2 << 20, "megabytes more in the last third than in the first")
        self.assertLess(len(store), 1000)

    def test_a_fault_behind_many_programs_is_found(self) -> None:
        with self.assertRaises(Illegal) as caught:
            with LongMonitor(self.program, events=300) as monitor:
                register = monitor.fresh()
                while monitor.parts < 30:
                    with register.write(1):
                        pass
                with register.read() as op:
                    op.value = 2
        self.assertEqual(monitor.close(), f"{caught.exception.reply} of part-0030")
        self.assertTrue(caught.exception.hint.startswith("no recorded operation wrote 2\nkey 0 of part-0030 is the object "))


if __name__ == "__main__":
    unittest.main()
