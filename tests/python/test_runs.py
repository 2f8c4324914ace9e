"""The page of a run in its folder, and that of all runs of a folder."""
from __future__ import annotations

import contextlib
import io
import json
import os
import re
from typing import Tuple

from jepmon import Illegal, LongMonitor, Monitor, runs
from jepmon.runs.summary import summaries
from tests.python.monitored import Monitored, Server


class Folders(Monitored):
    def setUp(self) -> None:
        super().setUp()
        self.out = self.room / "runs"

    def page(self) -> str:
        return (self.out / "latest" / "run.html").read_text("utf-8")

    def shown(self, *words: str) -> Tuple[int, str, str]:
        out, error = io.StringIO(), io.StringIO()
        with contextlib.redirect_stdout(out), contextlib.redirect_stderr(error):
            status = runs.main(list(words))
        return status, out.getvalue(), error.getvalue()

    def legal(self) -> None:
        with Monitor(out=self.out) as monitor, monitor.fault("cut n1 off"):
            for value in range(20):
                with monitor.write(3, value):
                    pass
            with monitor.read(3) as op:
                op.value = 19

    def illegal(self) -> None:
        store = Server()
        with contextlib.suppress(Illegal), Monitor(out=self.out) as monitor:
            with monitor.write(5, 1):
                store.put(5, 1)
            monitor.note("kill n1")
            store.kill()
            store.is_up = True
            with monitor.read(5) as op:
                op.value = store.get(5)


class OfARun(Folders):
    def test_a_legal_one(self) -> None:
        self.legal()
        text = self.page()
        self.assertIn("write: operations a second", text)
        self.assertIn("cut n1 off", text)
        self.assertIn("1 key, all legal", text)
        self.assertFalse((self.out / "latest" / "page.html").exists())
        self.assertRegex(text, r"<td>write</td><td class=\"number\">20</td>")  # the write by which the key begins is none

    def test_an_illegal_one(self) -> None:
        self.illegal()
        text = self.page()
        self.assertIn('<a href="page.html">', text)
        self.assertIn("illegal at event 5", text)
        self.assertIn("could not hold ABSENT any more", text)
        for there in re.findall(r'href="([^"]*)"', text):
            self.assertTrue(there.startswith("data:") or (self.out / "latest" / there).exists(), there)

    def test_one_that_was_broken_off(self) -> None:
        with self.assertRaises(KeyboardInterrupt), Monitor(out=self.out) as monitor:
            with monitor.write(5, 1):
                pass
            raise KeyboardInterrupt
        self.assertIn("write: operations a second", self.page())

    def test_of_parts(self) -> None:
        with LongMonitor(out=self.out, events=300, keys=4) as monitor:
            register = monitor.fresh()
            for value in range(500):
                with register.write(value):
                    pass
        self.assertGreater(monitor.parts, 1)
        text = self.page()
        self.assertRegex(text, r"<td>write</td><td class=\"number\">500</td>")
        self.assertEqual(list((self.out / "latest").glob("part-*/run.html")), [])

    def test_of_parts_that_were_removed(self) -> None:
        with LongMonitor(out=self.out, events=300, keys=4, keep=1) as monitor:
            register = monitor.fresh()
            for value in range(700):
                with register.write(value):
                    pass
        self.assertRegex(self.page(), "[0-9] legal parts were removed")

    def test_none_is_made_where_none_is_wanted(self) -> None:
        with LongMonitor(out=self.out, page=False) as monitor:
            with monitor.fresh().write(1):
                pass
        self.assertFalse((self.out / "latest" / "run.html").exists())


class OfAFolder(Folders):
    def test_all_at_a_glance(self) -> None:
        self.legal()
        self.illegal()
        status, out, error = self.shown(str(self.out))
        self.assertEqual((status, error), (0, ""))
        lines = out.splitlines()
        self.assertRegex(lines[0], r"^\S+  1 operation: illegal key 5 index 5$")
        self.assertRegex(lines[1], r"^\S+  21 operations: legal$")
        self.assertEqual(lines[2:], [f"page: {self.out / 'index.html'}"])
        text = (self.out / "index.html").read_text()
        self.assertIn("2 runs: 1 legal, 1 illegal", text)
        for there in re.findall(r'href="([^"]*)"', text):
            self.assertTrue(there.startswith("data:") or (self.out / there).exists(), there)
        self.assertEqual(self.shown(str(self.out))[0], 0)  # made anew

    def test_one_that_was_killed_gets_its_page(self) -> None:
        self.legal()
        for name in ("run.html", "verdict.txt", "counts.txt"):
            os.unlink(self.out / "latest" / name)
        status, out, _ = self.shown(str(self.out))
        self.assertEqual(status, 0)
        self.assertIn("no verdict: the test was killed, or is still running", out)
        self.assertIn("write: operations a second", self.page())

    def test_what_a_test_says_of_itself(self) -> None:
        self.legal()
        said = {"server": "Redis", "object": "register", "nemesis": "kill", "seconds": "20", "command": "jepmon-test redis <b>"}
        (self.out / "latest" / "run.json").write_text(json.dumps(said))
        status, out, _ = self.shown(str(self.out), "--redraw")
        self.assertEqual(status, 0)
        self.assertIn("Redis, register, kill, 20 s: 21 operations: legal", out)
        self.assertIn("jepmon-test redis &lt;b&gt;", self.page())

    def test_facts_that_are_none(self) -> None:
        self.legal()
        for text in ("[1]", "{", ""):
            (self.out / "latest" / "run.json").write_text(text)
            self.assertEqual(self.shown(str(self.out), "--redraw")[0], 0)
        self.assertEqual(summaries(self.out)[0].server, "")

    def test_bad_input(self) -> None:
        (self.room / "empty").mkdir()
        self.legal()
        (self.out / "index.html").write_text("a page of the user's own")
        for words, said in ((["nowhere"], "runs: nowhere: No such file or directory\n"),
                            ([str(self.room / "empty")], f"runs: {self.room}/empty: there is no run in this folder; see "),
                            ([str(self.out)], f"runs: {self.out}/index.html: this file is there, and is not a page of jepmon-runs\n"),
                            (["--strange"], "runs: unrecognized arguments: --strange; see ")):
            with self.subTest(words):
                status, out, error = self.shown(*words)
                self.assertEqual((status, out), (3, ""))
                self.assertTrue(error.startswith(said), error)
        self.assertEqual((self.out / "index.html").read_text(), "a page of the user's own")
