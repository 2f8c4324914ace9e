"""Registers and sets, judged as the program's wide kinds or by their ends, and what is said of that."""
from __future__ import annotations

import contextlib
import io
import json
import os
import pathlib
import tempfile
import unittest
from typing import List
from unittest import mock

from jepmon import Illegal, LongMonitor, Monitor, Unknown, history, page, program, shards
from jepmon.causes import cause
from jepmon.history import kinds
from jepmon.judge import tool as judge
from jepmon.objects import configurations as walk
from jepmon.program import KeyLine, Options, finding

from .. import forked
from . import TOP, fuzz, stores
from .monitored import Monitored

STALE = str(TOP / "examples" / "stale-read.edn")
HELP = "echo '--model <NAME> The object that every key is: register, cas-register, mutex, fifo-queue, set, unordered-queue{}'"
HELLO = "echo '{{:jepmon \"1.6.0\" :kinds [{}] :max-clients 64}}'"


class Names(unittest.TestCase):
    def test_a_model_and_its_kinds(self) -> None:
        self.assertEqual([kinds.model_of(name) for name in ("wide-register", "wide-set", "register", "mutex", "no-model")],
                         ["register", "set", "register", "mutex", "no-model"])
        for model in ("register", "cas-register", "fifo-queue", "unordered-queue", "set"):
            for name in (model, f"wide-{model}"):
                self.assertEqual((kinds.kind_of(name, False), kinds.kind_of(name, True)), (f"wide-{model}", model))
        for name in ("mutex", "no-model"):
            self.assertEqual((kinds.kind_of(name, False), kinds.kind_of(name, True)), (name, name))

    def test_a_line_of_a_report(self) -> None:
        for text in ("key 7 model wide-register budget 4096 events 6 status dead 5", "key 7 model wide-set budget 4096 events 6 status alive",
                     "key 7 model register budget 4096 events 6 status over 5", "key 7 model mutex budget 4096 events 6 status alive"):
            line = program.report_of(f"{text}\nlegal\n", "", 0).keys[0]
            self.assertEqual(line.text, text)
            self.assertEqual(line.model, text.split()[3].replace("wide-", ""))
            self.assertEqual(line.kind, text.split()[3])
        self.assertEqual(KeyLine(7, "set", 4096, 6, "alive", None).kind, "set")


class Programs(unittest.TestCase):
    """Programs that have the kinds, and those that do not."""

    def setUp(self) -> None:
        room = tempfile.TemporaryDirectory()
        self.addCleanup(room.cleanup)
        self.room = pathlib.Path(room.name)

    def program(self, name: str, script: str) -> str:
        path = self.room / name
        path.write_text(f"#!/bin/sh\necho $* >> {self.room}/{name}.asked\n{script}\n")
        path.chmod(0o755)
        return str(path)

    def test_the_program_is_asked_once(self) -> None:
        models = ("register", "set", "cas-register", "fifo-queue", "unordered-queue", "mutex")
        for name, has in (("old", ()), ("two", models[:2]), ("three", (*models[:2], "cas-register")), ("new", models[:5])):
            made = self.program(name, HELP.format("".join(f", wide-{model}" for model in has)))
            for _ in range(3):
                for model in models:
                    self.assertEqual(Options(model=model).words(made)[3], f"wide-{model}" if model in has else model)
            self.assertEqual((self.room / f"{name}.asked").read_text(), "script\ncheck --help\n")

    def test_hello_is_enough(self) -> None:
        for name, has in (("two", ("register", "wide-set")), ("none", ("register",)), ("all", tuple(finding.WIDE.values()))):
            made = self.program(name, HELLO.format(" ".join(f":{kind}" for kind in has)))
            self.assertEqual(program.wide_kinds(made), {kind for kind in has if kind.startswith("wide-")})
            self.assertEqual((self.room / f"{name}.asked").read_text(), "script\n")

    def test_what_is_no_hello(self) -> None:
        for name, said in (("refuses", "refused 5 BadValue"), ("legal", "legal"), ("map", "'{:kinds [:wide-register]}'")):
            made = self.program(name, f"[ $1 = script ] && exec echo {said}\n" + HELP.format(", wide-set"))
            self.assertEqual(program.wide_kinds(made), {"wide-set"})
        with mock.patch.object(finding, "PROMPT", 0.2):
            self.assertEqual(program.wide_kinds(self.program("silent", "exec sleep 20")), frozenset())

    def test_it_is_not_asked_where_that_says_nothing(self) -> None:
        new = self.program("new", HELP.format(", wide-register, wide-set"))
        self.assertEqual(Options(by_ends=True).words(new)[3], "register")
        self.assertEqual(Options(model="mutex").words(new)[3], "mutex")
        self.assertFalse((self.room / "new.asked").exists())

    def test_what_is_said_of_an_old_one(self) -> None:
        new = self.program("new", HELP.format(", wide-register, wide-set"))
        old = self.program("old", HELP.format(""))
        self.assertIn("does not have the kind wide-set", program.by_ends_note(Options(model="set"), old))
        self.assertIn("does not have the kind wide-fifo-queue", program.by_ends_note(Options(model="fifo-queue"), new))
        for options, name in ((Options(), new), (Options(by_ends=True), old), (Options(model="mutex"), old)):
            self.assertEqual(program.by_ends_note(options, name), "")

    def test_none(self) -> None:
        self.assertEqual(program.wide_kinds(str(self.room / "nowhere")), frozenset())


def judged(*words: str) -> "tuple[int, str, str]":
    """Runs jepmon-judge with these words: its status, its report, and its remarks."""
    out, err = io.StringIO(), io.StringIO()
    with contextlib.redirect_stdout(out), contextlib.redirect_stderr(err):
        status = judge.main([*words])
    return status, out.getvalue(), err.getvalue()


def is_wide() -> bool:
    return fuzz.has_program() and "wide-register" in program.wide_kinds()


@unittest.skipUnless(is_wide(), "the program has no wide kinds")
class Unknowns(unittest.TestCase):
    """A wide register over its budget, and what is said of it."""

    def over(self, budget: int) -> "tuple[str, program.Report, Options]":
        made = stores.UNKNOWN["many_timeouts"]()
        options = Options(made.concurrency, made.model, budget)
        return made.text, program.check(made.text.encode(), options), options

    def test_the_default_budget_decides_it(self) -> None:
        text, report, options = self.over(4096)
        self.assertEqual((report.word, report.keys[0].kind), ("legal", "wide-register"))
        self.assertEqual(program.check(text.encode(), options._replace(by_ends=True)).word, "unknown")

    def test_the_cause(self) -> None:
        text, report, options = self.over(4)
        found = cause.explain(history.read_history(text), report, options)
        assert found is not None
        self.assertEqual(found.headline, "At event 67 more than 4 lean outcomes were possible for key 0, which is its budget: from there on jepmon "
                         "does not judge it.")
        self.assertEqual(found.sentences, [
            "A lean outcome has only those open or timed-out writes that an answer needs.",
            "2 operations had timed out: client 2's write of 303 (event 35) and client 4's write of 505 (event 38).",
            "3 operations were open at once: client 2's write of 305 (event 62), client 4's read (event 63) and client 3's read (event 65).",
            "In the next test after some timeouts go on with a new key for writes, and let reads stay on the old one; raise --budget, up to 65536."])

    def test_a_walk_says_nothing_of_the_budget(self) -> None:
        """It counts all ends, which are more."""
        text, _, options = self.over(4096)
        events = history.read_history(text)
        self.assertEqual(walk.follow(events, options._replace(by_ends=True)).status, "over")
        followed = walk.follow(events, options)
        self.assertEqual(followed.status, "gave up")
        shown = page.render(page.PageInput("legal", 0, events, walked=page.walked(followed, {})))
        self.assertNotIn("does not agree", shown)


class Judging(unittest.TestCase):
    """jepmon-judge and jepmon-shards."""

    @unittest.skipUnless(is_wide(), "the program has no wide kinds")
    def test_the_report_has_the_kind(self) -> None:
        for words, kind in (([], "wide-register"), (["--model", "register"], "wide-register"), (["--model", "wide-register"], "wide-register"),
                            (["--by-ends"], "register"), (["--by-ends", "--model", "wide-register"], "register")):
            for jobs in ([], ["--jobs", "1"]):
                status, out, err = judged(STALE, *words, *jobs)
                self.assertEqual((status, out), (1, f"key 7 model {kind} budget 4096 events 6 status dead 5\nillegal key 7 index 5\n"))
                again = f"--model {kind} " if not jobs else "--model register" + (" --by-ends" if "--by-ends" in words else "")
                self.assertIn(again, err)
                self.assertEqual(err.count("wide-register"), 0 if jobs else kind.count("wide-register"), err)

    @unittest.skipUnless(fuzz.has_program(), "there is no program")
    def test_json_has_both(self) -> None:
        kind = "wide-register" if is_wide() else "register"
        bad = json.loads(judged(STALE, "--json")[1])["bad_keys"][0]
        self.assertEqual((bad["model"], bad["kind"]), ("register", kind))
        bad = json.loads(judged(STALE, "--json", "--by-ends")[1])["bad_keys"][0]
        self.assertEqual((bad["model"], bad["kind"]), ("register", "register"))

    @unittest.skipUnless(fuzz.has_program(), "there is no program")
    def test_commands_of_a_history(self) -> None:
        """A kind that a history names is a model; the tool chooses the kind."""
        with tempfile.TemporaryDirectory() as room:
            path = pathlib.Path(room, "h.edn")
            for kind in ("register", "wide-register"):
                path.write_text(f"[:model 7 :{kind}]\n" + pathlib.Path(STALE).read_text())
                status, out, _ = judged(str(path))
                wanted = "wide-register" if is_wide() else "register"
                self.assertEqual((status, out.splitlines()[0].split()[3]), (1, wanted))

    @unittest.skipUnless(fuzz.has_program(), "there is no program")
    def test_shards_know_how_they_are_to_be_judged(self) -> None:
        with tempfile.TemporaryDirectory() as room:
            for number, (words, begin) in enumerate((([], ""), (["--by-ends"], " --by-ends"), (["--model", "wide-register"], ""))):
                folder = os.path.join(room, str(number))
                self.run_shards("split", STALE, folder, *words)
                first = pathlib.Path(folder, "shard-0-0.edn").read_text().splitlines()[0]
                self.assertEqual(first.split(" --model ")[1], f"register --budget 4096{begin}")
                self.run_shards("judge", os.path.join(folder, "shard-0-0.edn"))
                report = self.run_shards("join", folder)
                kind = "wide-register" if is_wide() and not begin else "register"
                self.assertEqual(report, f"key 7 model {kind} budget 4096 events 6 status dead 5\nillegal key 7 index 5\n")

    def run_shards(self, *words: str) -> str:
        ran = forked.ran(["-m", "jepmon", "shards", *words])
        self.assertIn(ran.returncode, (0, 1), ran.stderr)
        return ran.stdout.decode()

    @unittest.skipUnless(is_wide(), "the program has no wide kinds")
    def test_one_check_and_shards_say_the_same(self) -> None:
        for by_ends in (False, True):
            options = Options(2, by_ends=by_ends)
            self.assertEqual(shards.check(STALE, options, 1).text, program.check(STALE, options).text)


class Live(Monitored):
    def kinds_of(self, lines: List[str]) -> List[str]:
        return [line.split(":")[-1].rstrip("]") for line in lines if line.startswith("[:model")]

    def test_what_a_monitor_tells_the_program(self) -> None:
        new = "wide-register" in program.wide_kinds(self.program)
        for by_ends in (False, True):
            log = io.StringIO()
            monitor = Monitor(self.program, model="wide-register", by_ends=by_ends, log=log, out=self.room)
            for key, name in enumerate(("set", "wide-set", "mutex", "register")):
                monitor.set_model(key, name)
            with monitor.add(0, 1), monitor.read(1) as op:
                op.value = set()
            with self.assertRaises(Illegal), monitor.read(9) as op:
                op.value = 5
            self.assertRegex(monitor.close(), "illegal key 9 index [0-9]+")
            is_wide = new and not by_ends
            self.assertEqual(self.kinds_of(log.getvalue().splitlines()),
                             ["wide-set", "wide-set", "mutex", "wide-register"] if is_wide else ["set", "set", "mutex", "register"])
            assert monitor.folder is not None
            self.assertIn(f"--model {'wide-register' if is_wide else 'register'} ", (monitor.folder / "judge-again").read_text())
            self.assertEqual(self.verdict_by(monitor.folder), monitor.close())

    def test_the_hint_of_an_unknown_key(self) -> None:
        with self.assertRaises(Unknown) as caught, Monitor(self.program, budget=1, by_ends=True) as monitor:
            with monitor.write(0, 1), monitor.write(0, 2):
                pass
        self.assertNotIn("does not have", str(caught.exception))

        def two_orders() -> None:
            with Monitor(self.program, budget=1) as monitor:
                with monitor.write(0, 1), monitor.write(0, 2), monitor.read(0) as op:
                    with monitor.write(0, 3):
                        pass
                    with monitor.write(0, 4):
                        pass
                    op.value = 3
                with monitor.read(0) as op:
                    op.value = 1
                with monitor.read(0) as op:
                    op.value = 2

        with self.assertRaises(Unknown) as caught:
            two_orders()
        if program.wide_kinds(self.program):
            self.assertIn("answers need many open or timed-out writes", str(caught.exception))
        else:
            self.assertIn("does not have the kind wide-register", str(caught.exception))

    def test_a_monitor_without_an_end(self) -> None:
        for by_ends in (False, True):
            with LongMonitor(self.program, by_ends=by_ends, model="wide-set", out=self.room) as monitor:
                handle = monitor.fresh()
                self.assertEqual(handle.model, "set")
                with handle.add(1) as op:
                    pass
                with op.object.read() as read:
                    read.value = {1}
            self.assertEqual(monitor.close(), "legal")
            assert monitor.folder is not None
            kind = "wide-set" if program.wide_kinds(self.program) and not by_ends else "set"
            self.assertIn(f"--model {kind} ", (monitor.folder / "part-0001" / "judge-again").read_text())


class Fallen(unittest.TestCase):
    @unittest.skipUnless(fuzz.has_program(), "there is no program")
    def test_a_cause_names_a_program_that_is_too_old(self) -> None:
        made = stores.UNKNOWN["many_timeouts"]()
        options = Options(made.concurrency, made.model, by_ends=True)
        report = program.check(made.text.encode(), options)
        with mock.patch.object(finding, "_wide_kinds", return_value=frozenset()):
            found = cause.explain(history.read_history(made.text), report, options._replace(by_ends=False))
        assert found is not None
        self.assertIn("does not have the kind wide-register, so it judged by ends, as --by-ends does", found.sentences[-1])

    @unittest.skipUnless(fuzz.has_program(), "there is no program")
    def test_a_verdict_without_a_cause_names_it(self) -> None:
        made = stores.UNKNOWN["many_timeouts"]()
        with tempfile.TemporaryDirectory() as room, mock.patch.object(finding, "_wide_kinds", return_value=frozenset()):
            path = pathlib.Path(room, "h.edn")
            path.write_text(made.text)
            for words, count in (([], 1), (["--jobs", "1"], 1), (["--by-ends"], 0)):
                status, _, err = judged(str(path), "--concurrency", str(made.concurrency), "--nil-is-unknown", "--no-cause", "--decide-seconds", "0",
                                        *words)
                self.assertEqual((status, err.count("does not have the kind wide-register")), (2, count), err)


if __name__ == "__main__":
    unittest.main()
