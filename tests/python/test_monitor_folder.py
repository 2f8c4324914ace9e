"""The folder of a run: its files at each verdict, and that its history is judged the same again."""
from __future__ import annotations

import os
import pathlib
import subprocess
import sys
import unittest
from typing import List

from jepmon import Failed, Illegal, Monitor, NotLegal, Refused, Unknown
from jepmon.history import read_history
from jepmon.live import aftermath
from jepmon.program import Options
from tests.python.monitored import Monitored

TOP = pathlib.Path(__file__).resolve().parents[2]

FULL = """
import resource, sys
from jepmon import Illegal, Monitor
with Monitor(sys.argv[1], out=sys.argv[2]) as monitor:
    for value in range(200):
        if value == 100:  # from here on a file has no room for more than it has
            size = (monitor.folder / "history.edn").stat().st_size
            resource.setrlimit(resource.RLIMIT_FSIZE, (size + 50, size + 50))
        with monitor.write(7, value):
            pass
    try:
        with monitor.read(7) as op:
            op.value = 5
    except Illegal as found:
        print(found.reply)
"""


class Folders(Monitored):
    def lines(self, monitor: Monitor, name: str) -> List[str]:
        assert monitor.folder is not None
        return (monitor.folder / name).read_text().splitlines()

    def stale_read(self, monitor: Monitor) -> None:
        with monitor.write(7, 1):
            pass
        with monitor.read(7) as op:
            op.value = None

    def test_legal(self) -> None:
        with Monitor(self.program, concurrency=3, out=self.room / "runs") as monitor:
            with monitor.write(7, 1):
                pass
        assert monitor.folder is not None
        self.assertEqual(sorted(os.listdir(monitor.folder)), ["counts.txt", "history.edn", "judge-again", "run.html", "verdict.txt"])
        self.assertEqual(self.lines(monitor, "verdict.txt"), ["legal"])
        self.assertEqual(self.lines(monitor, "counts.txt"), ["events: 4", "write: 1 ok, 0 fail, 0 info"])
        self.assertEqual(self.lines(monitor, "judge-again")[-1],
                         f'exec "${{JEPMON:-jepmon}}" check history.edn --concurrency 3 --model {Options().kind(self.program)} --budget 4096')
        self.assertEqual(self.verdict_by(monitor.folder), "legal")
        self.assertEqual((self.room / "runs" / "latest").resolve(), monitor.folder.resolve())

    def test_illegal(self) -> None:
        with self.assertRaises(Illegal) as caught:
            with Monitor(self.program, out=self.room) as monitor:
                with monitor.fault("cut n2 off"):
                    self.stale_read(monitor)
        self.assertEqual(str(caught.exception).splitlines()[0], f"illegal key 7 index 5 ({monitor.folder})")
        self.assertEqual(caught.exception.reply, "illegal key 7 index 5")
        self.assertEqual(self.lines(monitor, "verdict.txt"), ["illegal key 7 index 5"])
        assert monitor.folder is not None
        self.assertIn("read ABSENT from key 7", self.lines(monitor, "cause.txt")[0])
        page = (monitor.folder / "page.html").read_text()
        self.assertIn("illegal", page)
        self.assertIn("cut n2 off", page)
        self.assertEqual(self.verdict_by(monitor.folder), "illegal key 7 index 5")

    def test_the_verdict_is_there_before_the_end(self) -> None:
        monitor = Monitor(self.program, out=self.room)
        self.addCleanup(monitor.close)
        with self.assertRaises(Illegal):
            self.stale_read(monitor)
        self.assertEqual(self.lines(monitor, "verdict.txt"), ["illegal key 7 index 5"])
        monitor.close()
        self.assertTrue(self.lines(monitor, "page.html"))

    def test_each_event_is_in_the_file_at_once_with_its_time(self) -> None:
        with Monitor(self.program, out=self.room) as monitor:
            with monitor.write(7, 1):
                began = self.lines(monitor, "history.edn")
            self.assertTrue(began[0].startswith("; "))
            self.assertRegex(began[-1], r"^\{:type :invoke, :process 0, :f :write, :value \[7 1\], :time [0-9]+\}$")
        times = [int(line.split(":time ")[1][:-1]) for line in self.lines(monitor, "history.edn")[1:]]
        self.assertEqual(times, sorted(times))
        self.assertEqual(len(times), 4)

    def test_a_key_over_its_budget(self) -> None:
        with self.assertRaises(Unknown) as caught:
            with Monitor(self.program, budget=1, by_ends=True, out=self.room) as monitor:
                with monitor.write(0, 1), monitor.write(0, 2):
                    pass
        self.assertEqual(str(caught.exception).splitlines()[0], f"{caught.exception.reply} ({monitor.folder})")
        self.assertEqual(self.lines(monitor, "verdict.txt")[0], caught.exception.reply)
        self.assertIn("more than 1 outcome was possible for key 0", self.lines(monitor, "cause.txt")[0])
        assert monitor.folder is not None
        self.assertEqual(self.verdict_by(monitor.folder), caught.exception.reply)

    def test_a_key_that_is_dropped(self) -> None:
        """The history has what happened, so that a check says `unknown` of it as the run does; and its processes go on."""
        with Monitor(self.program, budget=3, by_ends=True, unknown="drop", concurrency=4, out=self.room) as monitor:
            with monitor.write(0, 1), monitor.write(0, 2):
                pass
            for value in range(3):
                with monitor.write(1, value):
                    pass
            with self.assertRaises(KeyError), monitor.read(1):
                raise KeyError
            with monitor.write(1, 9):
                pass
            with monitor.read(1) as op:
                op.value = 9
        self.assertEqual(monitor.close(), "unknown key 0 index 4")
        self.assertEqual(self.lines(monitor, "verdict.txt"), ["unknown key 0 index 4"])
        self.assertEqual(self.lines(monitor, "counts.txt")[-1], "dropped: unknown key 0 index 4")
        self.assertTrue(self.lines(monitor, "page.html"), "the history has the event at which it was dropped")
        self.assertIn("more than 3 outcomes were possible for key 0", self.lines(monitor, "cause.txt")[0])
        assert monitor.folder is not None
        self.assertEqual(self.verdict_by(monitor.folder), "unknown key 0 index 4")
        history = (monitor.folder / "history.edn").read_text()
        self.assertEqual(len([line for line in history.splitlines() if line.startswith("{")]), monitor.length)
        self.assertNotIn("rewind", history)

    def test_illegal_after_a_key_was_dropped(self) -> None:
        with self.assertRaises(Illegal) as caught:
            with Monitor(self.program, budget=3, by_ends=True, unknown="drop", out=self.room) as monitor:
                with monitor.write(0, 1), monitor.write(0, 2):
                    pass
                self.stale_read(monitor)
        self.assertEqual(self.lines(monitor, "verdict.txt")[0], caught.exception.reply)
        assert monitor.folder is not None
        self.assertEqual(self.verdict_by(monitor.folder), caught.exception.reply)

    def test_keys_of_other_models(self) -> None:
        """Then the history is one for `script`, and the options say so."""
        with self.assertRaises(Illegal) as caught:
            with Monitor(self.program, out=self.room) as monitor:
                monitor.set_model(4, "mutex")
                monitor.set_budget(5, 100)
                with monitor.acquire(4):
                    pass
                with monitor.acquire(4):
                    pass
        self.assertEqual(caught.exception.reply, "illegal key 4 index 3")
        self.assertEqual(self.lines(monitor, "judge-again")[-1],
                         f'exec "${{JEPMON:-jepmon}}" script --concurrency 64 --model {Options().kind(self.program)} --budget 4096 < history.edn')
        self.assertIn("lock 4", self.lines(monitor, "cause.txt")[0])
        assert monitor.folder is not None
        self.assertEqual(self.verdict_by(monitor.folder), "illegal key 4 index 3")

    def test_what_is_refused(self) -> None:
        with self.assertRaises(Refused) as caught:
            with Monitor(self.program, out=self.room) as monitor:
                monitor.set_model(0, "stack")
        self.assertEqual(str(caught.exception).splitlines()[0], f"refused 5 BadValue: [:model 0 :stack] ({monitor.folder})")
        self.assertEqual(self.lines(monitor, "verdict.txt")[0], "refused 5 BadValue: [:model 0 :stack]")

    def test_what_else_ended_the_test(self) -> None:
        with self.assertRaises(KeyError):
            with Monitor(self.program, out=self.room) as monitor:
                raise KeyError("of the test")
        self.assertEqual(self.lines(monitor, "verdict.txt"), ["legal"])
        self.assertEqual(self.lines(monitor, "counts.txt"), ["events: 0", "the test was ended by KeyError('of the test')"])

    def test_numbers_that_stand_for_other_things(self) -> None:
        with Monitor(self.program, out=self.room) as monitor:
            with monitor.write(monitor.number("key"), monitor.number("a\nvalue")):
                pass
        self.assertEqual(self.lines(monitor, "names.txt"), ["0 is 'key'", "1 is 'a\\nvalue'"])

    def test_events_are_read_as_by_the_reader_of_histories(self) -> None:
        with Monitor(self.program, model="cas-register", out=self.room) as monitor:
            monitor.set_model(2, "set")
            with monitor.cas(1, None, -5), monitor.write(1, 7), monitor.add(2, 3):
                pass
            with monitor.read(1) as op:
                raise Failed
            with monitor.read(1) as op, monitor.read(2) as members:
                op.value, members.value = 7, {3}
        assert monitor.folder is not None
        history = monitor.folder / "history.edn"
        text = "\n".join("" if line.startswith("[") else line for line in history.read_text().split("\n"))
        for key in (1, 2):
            self.assertEqual(aftermath.read(history, key)[0], [event for event in read_history(text) if event.key == key])

    def test_a_test_that_goes_to_another_folder(self) -> None:
        before = os.getcwd()
        self.addCleanup(os.chdir, before)
        os.chdir(self.room)
        (self.room / "other").mkdir()
        with self.assertRaises(Illegal) as caught:
            with Monitor(self.program, out="runs/") as monitor:
                os.chdir("other")
                self.stale_read(monitor)
        self.assertRegex(str(caught.exception).splitlines()[0], r" \(runs/[0-9T.]+\)$")
        self.assertTrue((self.room / "runs" / "latest" / "page.html").exists())
        self.assertEqual(os.listdir(self.room / "other"), [])

    def test_two_runs_at_once(self) -> None:
        monitors = [Monitor(self.program, out=self.room) for _ in range(3)]
        self.assertEqual(len({monitor.folder for monitor in monitors}), 3)
        for monitor in monitors:
            monitor.close()
        self.assertTrue((self.room / "latest" / "verdict.txt").exists())

    def test_a_folder_that_can_not_be_made(self) -> None:
        file = self.room / "file"
        file.write_text("")
        for out in (file, file / "runs"):
            with self.assertRaisesRegex(NotADirectoryError if out != file else FileExistsError, "the folder of a run can't be made: "):
                Monitor(self.program, out=out)
        (self.room / "runs" / "latest").mkdir(parents=True)
        with self.assertRaisesRegex(OSError, "the folder of a run can't be made: "):
            Monitor(self.program, out=self.room / "runs")
        self.assertEqual(os.listdir(self.room / "runs"), ["latest"], "nothing is left")

    def test_an_option_that_is_refused_leaves_no_folder(self) -> None:
        with self.assertRaises(Refused):
            Monitor(self.program, budget=0, out=self.room / "runs")
        self.assertFalse((self.room / "runs").exists())

    def test_a_full_disk(self) -> None:
        """The judging goes on, the loss is said once, and what was written is a whole history."""
        ran = subprocess.run([sys.executable, "-c", FULL, self.program, str(self.room)], stdout=subprocess.PIPE, stderr=subprocess.PIPE,
                             universal_newlines=True, env={**os.environ, "PYTHONPATH": str(TOP / "python")})
        self.assertIn("illegal key 7 index 403", ran.stdout)
        said = [line for line in ran.stderr.splitlines() if line.startswith("jepmon: ")]
        self.assertEqual(len(said), 1, ran.stderr)
        self.assertRegex(said[0], r"history\.edn can't be written: File too large; the test goes on without")
        self.assertEqual(self.verdict_of(self.room / "latest" / "history.edn"), "legal")
        self.assertIn("history.edn can't be written: File too large", (self.room / "latest" / "counts.txt").read_text())

    def test_nothing_is_left_without_out(self) -> None:
        with self.assertRaises(NotLegal) as caught:
            with Monitor(self.program) as monitor:
                self.stale_read(monitor)
        self.assertEqual(str(caught.exception).splitlines()[0], "illegal key 7 index 5")
        self.assertIsNone(monitor.folder)
        self.assertEqual(os.listdir(self.room), [])


if __name__ == "__main__":
    unittest.main()
