"""FIFO queues in which two enqueues of one value have not failed: they are judged by their ends."""
from __future__ import annotations

import contextlib
import io
import os
import pathlib
import tempfile
import unittest
import unittest.mock
from typing import Dict, Iterator, List, Optional, Tuple

from jepmon import Illegal, Monitor, Unknown, history, program, shards
from jepmon.causes import cause
from jepmon.causes.equal_values import equal_enqueues
from jepmon.explain import main as explain
from jepmon.history.line import event_line
from jepmon.judge import tool as judge
from jepmon.live.equal_values import is_further, replies_by
from jepmon.live.lines import Line
from jepmon.program import KeyLine, Options, Report, equal_values
from jepmon.program.report import report_on, verdict_in, verdict_of

from . import fuzz
from .monitored import Monitored

Row = Tuple[str, int, str, int, str]


def line(text: str) -> KeyLine:
    return program.report_of(f"{text}\nlegal\n", "", 0).keys[0]


def report(*texts: str) -> Report:
    lines = [line(f"key {text.split()[0]} model {text.split()[1]} budget 4096 events 9 status {' '.join(text.split()[2:])}") for text in texts]
    return report_on(lines, verdict_of(*(equal_values.first(lines, (status,)) for status in ("dead", "over")), len(lines)))


class Joined(unittest.TestCase):
    """The reports of a check and of the one by ends, as one report."""

    def in_full(self, first: Report, by_ends: Optional[Report]) -> Tuple[List[str], str]:
        asked: List[bool] = []

        def answer(options: Options) -> Report:
            asked.append(options.by_ends)
            return first if not options.by_ends else by_ends or self.fail("it was asked by ends")

        found = program.in_full(Options(model="fifo-queue"), answer)
        self.assertEqual(asked, [False] if by_ends is None else [False, True])
        self.assertEqual(found.text, "".join(f"{line.text}\n" for line in found.keys) + found.verdict + "\n")
        return [f"{line.key} {line.kind} {line.status} {line.index}" for line in found.keys], found.verdict

    def test_it_is_asked_again_only_if_values_are_equal(self) -> None:
        for text in ("1 wide-fifo-queue alive", "1 wide-fifo-queue dead 3", "1 fifo-queue over 3", "1 wide-register over 3"):
            self.assertEqual(len(self.in_full(report(text), None)[0]), 1)

    def test_the_kind_that_judged_further(self) -> None:
        for by_ends, wanted in (("alive", "1 fifo-queue alive None"), ("dead 7", "1 fifo-queue dead 7"), ("over 7", "1 fifo-queue over 7"),
                                ("over 5", "1 wide-fifo-queue over 5"), ("over 3", "1 wide-fifo-queue over 5")):
            self.assertEqual(self.in_full(report("1 wide-fifo-queue over 5"), report(f"1 fifo-queue {by_ends}"))[0], [wanted])

    def test_the_other_keys_stay(self) -> None:
        first = report("1 wide-fifo-queue over 5", "2 wide-fifo-queue dead 8", "3 wide-fifo-queue alive")
        lines, verdict = self.in_full(first, report("1 fifo-queue dead 6", "2 fifo-queue over 2", "3 fifo-queue over 1"))
        self.assertEqual(lines, ["1 fifo-queue dead 6", "2 wide-fifo-queue dead 8", "3 wide-fifo-queue alive None"])
        self.assertEqual(verdict, "illegal key 1 index 6")
        self.assertEqual(self.in_full(report("1 wide-fifo-queue over 5"), report("1 fifo-queue alive"))[1], "legal")

    def test_a_second_check_that_is_refused(self) -> None:
        refused = program.report_of("refused 13 NoMemory\n", "", 3)
        self.assertEqual(self.in_full(report("1 wide-fifo-queue over 5"), refused)[1], "unknown key 1 index 5")

    def test_the_note(self) -> None:
        self.assertEqual(equal_values.note([3]), "key 3: two enqueues of one value have not failed, so it is judged by ends, as fifo-queue")
        self.assertTrue(equal_values.note([3, 5], {5: "a"}).startswith("keys 3, a: "))
        self.assertTrue(equal_values.note(list(range(9))).startswith("keys 0, 1, 2, 3, 4, 5 and 3 more: "))


class Replies(unittest.TestCase):
    """Replies to lines that were all sent, once a key is judged by its ends."""

    lines = [Line("a", 1, 4), Line("[:model 2 :set]"), Line("b", 1, 5), Line("c", 2, 6)]

    def test_legal_up_to_the_event(self) -> None:
        for reply, wanted in (("legal", 4), ("illegal key 2 index 6", 3), ("unknown key 1 index 5", 2), ("illegal key 9 index 1", 0)):
            self.assertEqual(replies_by(self.lines, reply), ["legal"] * wanted + [reply] * (4 - wanted))

    def test_which_judges_further(self) -> None:
        for reply, wanted in (("legal", True), ("illegal key 1 index 6", True), ("unknown key 2 index 1", True), ("unknown key 1 index 6", True),
                              ("unknown key 1 index 5", False), ("unknown key 1 index 2", False), ("refused 13 NoMemory", False)):
            self.assertEqual(is_further(1, 5, reply), wanted, reply)
        self.assertIsNone(verdict_in("legal"))


class Enqueues(unittest.TestCase):
    def two(self, *rows: Row) -> Optional[Tuple[int, int]]:
        found = equal_enqueues(history.operations(history.read_history(text_of(rows)), 4))
        return None if found is None else (found[0].invocation.index, found[1].invocation.index)

    def test_the_first_two(self) -> None:
        self.assertEqual(self.two(*done(0, "enqueue", 1, "5"), *done(0, "enqueue", 1, "6"), *done(0, "enqueue", 1, "5")), (0, 4))
        self.assertEqual(self.two(*done(0, "enqueue", 1, "5"), ("invoke", 1, "enqueue", 1, "5")), (0, 2))

    def test_none(self) -> None:
        failed: List[Row] = [("invoke", 1, "enqueue", 1, "5"), ("fail", 1, "enqueue", 1, "5")]
        self.assertIsNone(self.two(*done(0, "enqueue", 1, "5"), *failed, *done(0, "enqueue", 1, "6")))


def done(process: int, name: str, key: int, value: str) -> Iterator[Row]:
    yield "invoke", process, name, key, "nil" if name == "dequeue" else value
    yield "ok", process, name, key, value


def text_of(rows: "Tuple[Row, ...] | List[Row]") -> str:
    return "".join(event_line(kind, process, name, key, value) + "\n" for kind, process, name, key, value in rows)


def equal(key: int) -> List[Row]:
    """Two messages of one value."""
    return [*done(0, "enqueue", key, "5"), *done(0, "enqueue", key, "5"), *done(0, "dequeue", key, "5"), *done(0, "dequeue", key, "5")]


def differing(key: int) -> List[Row]:
    return [*done(0, "enqueue", key, "5"), *done(0, "dequeue", key, "5")]


def too_many(key: int) -> List[Row]:
    """More ends than any budget before the second enqueue of a value."""
    begun: List[Row] = [("invoke", process, "enqueue", key, str(process)) for process in range(1, 11)]
    return [*begun, *done(0, "enqueue", key, "20"), *done(0, "enqueue", key, "20"), *done(0, "enqueue", key, "21")]


def has_kind() -> bool:
    return fuzz.has_program() and "wide-fifo-queue" in program.wide_kinds()


@unittest.skipUnless(has_kind(), "the program has no kind wide-fifo-queue")
class Recorded(unittest.TestCase):
    def setUp(self) -> None:
        room = tempfile.TemporaryDirectory()
        self.addCleanup(room.cleanup)
        self.room = pathlib.Path(room.name)

    def file(self, *rows: Row, head: str = "") -> str:
        path = self.room / "h.edn"
        path.write_text(head + text_of(rows))
        return str(path)

    def judged(self, *words: str) -> Tuple[List[str], str]:
        out, err = io.StringIO(), io.StringIO()
        with contextlib.redirect_stdout(out), contextlib.redirect_stderr(err):
            judge.main([*words, "--decide-seconds", "0"])
        return out.getvalue().splitlines(), err.getvalue()

    def test_each_way_to_judge(self) -> None:
        path, note = self.file(*equal(1), *differing(2)), equal_values.note([1])
        wanted = ["key 1 model fifo-queue budget 4096 events 8 status alive", "key 2 model wide-fifo-queue budget 4096 events 4 status alive", "legal"]
        for words in ([], ["--jobs", "1"], ["--model", "wide-fifo-queue"]):
            lines, said = self.judged(path, *words)
            self.assertEqual(lines, wanted)
            self.assertEqual(said.count(note), 1, said)
        self.assertEqual(shards.check(path, Options(model="fifo-queue"), 1).text.splitlines(), wanted)
        lines, said = self.judged(path, "--by-ends")
        self.assertEqual((lines[1].split()[3], note in said), ("fifo-queue", False))

    def test_it_is_judged_again_so(self) -> None:
        for rows, command in (([*equal(1), *differing(2)], "script"), (equal(1), "check")):
            out = self.room / command
            self.judged(self.file(*rows), "--out", str(out))
            again = (out / "judge-again").read_text()
            self.assertIn(f" {command} ", again)
            self.assertEqual(os.popen(f"JEPMON={program.find_program()} {out}/judge-again").read().splitlines()[-1], "legal")

    def test_keys_of_several_models_and_budgets(self) -> None:
        rows: List[Row] = [*equal(1), *done(0, "write", 3, "1"), ("invoke", 0, "read", 3, "nil"), ("ok", 0, "read", 3, "1")]
        lines, said = self.judged(self.file(*rows))
        self.assertEqual([line.split()[3] for line in lines[:2]], ["fifo-queue", "wide-register"])
        lines, said = self.judged(self.file(*rows, head="[:budget 3 7]\n"))
        self.assertEqual((lines, said.count(equal_values.note([1]))), (["legal"], 1))

    def test_illegal(self) -> None:
        lines, said = self.judged(self.file(*equal(1), *done(0, "dequeue", 1, "5")))
        self.assertEqual(lines[-1], "illegal key 1 index 9")
        self.assertIn("Client 0 took 5 from queue 1, which client 0 had taken already.", said)

    def test_a_queue_that_is_over_by_its_ends_too(self) -> None:
        lines, said = self.judged(self.file(*too_many(1), *equal(2)), "--concurrency", "11")
        self.assertEqual(lines[0], "key 1 model wide-fifo-queue budget 4096 events 16 status over 13")
        self.assertIn("Before event 13 two enqueues of 20 to queue 1 had not failed, and by its ends", said)
        self.assertIn("this key, judged by its ends, is over its budget at event 11", " ".join(said.split()))
        self.assertEqual(said.count(equal_values.note([2])), 1)
        _, said = self.judged(self.file(*too_many(1)), "--concurrency", "11", "--no-cause")
        self.assertIn(equal_values.LEFT.format(1), said)

    def test_the_cause_of_a_queue_over_its_budget_by_ends(self) -> None:
        rows = [*equal(1), *too_many(1)]
        events, options = history.read_history(text_of(rows)), Options(11, "fifo-queue")
        found = cause.explain(events, program.check(text_of(rows).encode(), options), options)
        assert found is not None
        self.assertIn("more than 4,096 outcomes were possible", found.headline)
        self.assertTrue(found.sentences[-1].startswith("Two enqueues of 5 had not failed"), found.sentences)

    def test_explain(self) -> None:
        out, err = io.StringIO(), io.StringIO()
        words = ["explain", self.file(*equal(1), *differing(2)), "--model", "fifo-queue", "--concurrency", "1"]
        with contextlib.redirect_stdout(out), contextlib.redirect_stderr(err), unittest.mock.patch("sys.argv", words):
            explain()
        self.assertEqual([line.split()[3] for line in out.getvalue().splitlines()[:2]], ["fifo-queue", "wide-fifo-queue"])
        self.assertIn(equal_values.note([1]), err.getvalue())


@unittest.skipUnless(has_kind(), "the program has no kind wide-fifo-queue")
class Live(Monitored):
    def play(self, rows: List[Row], **options: object) -> Tuple[Monitor, str]:
        """A monitor that has recorded these events, and its standard error."""
        err = io.StringIO()
        monitor = Monitor(self.program, model="fifo-queue", out=self.room, **options)  # type: ignore[arg-type]
        with contextlib.redirect_stderr(err), contextlib.suppress(Illegal, Unknown), monitor, contextlib.ExitStack() as stack:
            opened: Dict[int, contextlib.ExitStack] = {}
            for kind, process, name, key, value in rows:
                if kind == "invoke":
                    block = opened[process] = stack.enter_context(contextlib.ExitStack())
                    op = block.enter_context(monitor.dequeue(key) if name == "dequeue" else monitor.enqueue(key, int(value)))
                else:
                    if name == "dequeue":
                        op.value = int(value)
                    opened[process].close()
        return monitor, err.getvalue()

    def commands(self, monitor: Monitor) -> List[str]:
        assert monitor.folder is not None
        return [line for line in (monitor.folder / "history.edn").read_text().splitlines() if line.startswith("[")]

    def test_each_key_is_judged_by_its_ends(self) -> None:
        monitor, said = self.play([*equal(1), *differing(2), *equal(3)])
        self.assertEqual((monitor.close(), set(monitor.equal_values)), ("legal", {1, 3}))
        self.assertEqual(said.count("two enqueues of one value have not failed"), 1, said)
        self.assertIn("key 1: ", said)
        self.assertEqual(self.commands(monitor), ["[:model 1 :fifo-queue]", "[:model 3 :fifo-queue]"])
        assert monitor.folder is not None
        self.assertEqual(self.verdict_by(monitor.folder), "legal")
        self.assertIn("judged by ends, since values are equal: key 3\n", (monitor.folder / "counts.txt").read_text())

    def test_illegal(self) -> None:
        monitor, _ = self.play([*equal(1), *done(0, "dequeue", 1, "5")])
        self.assertEqual(monitor.close(), "illegal key 1 index 9")
        assert monitor.folder is not None
        self.assertEqual(self.verdict_by(monitor.folder), monitor.close())
        self.assertIn("took 5 from queue 1, which client", (monitor.folder / "cause.txt").read_text())

    def test_by_ends(self) -> None:
        monitor, said = self.play(equal(1), by_ends=True)
        self.assertEqual((monitor.close(), set(monitor.equal_values), said, self.commands(monitor)), ("legal", set(), "", []))

    def test_a_key_that_is_over_by_its_ends_too(self) -> None:
        for unknown, by_ends in (("raise", set()), ("drop", {2})):
            monitor, said = self.play([*too_many(1), *equal(2)], unknown=unknown)
            self.assertEqual((monitor.close(), set(monitor.equal_values)), ("unknown key 1 index 13", by_ends))
            self.assertEqual(self.commands(monitor), [f"[:model {key} :fifo-queue]" for key in by_ends])
            assert monitor.folder is not None
            self.assertEqual(self.verdict_by(monitor.folder), monitor.close())
            self.assertIn("give each message a value of its own", (monitor.folder / "cause.txt").read_text())

    def test_a_model_that_is_named_again(self) -> None:
        monitor = Monitor(self.program, model="fifo-queue")
        with contextlib.redirect_stderr(io.StringIO()):
            for _ in range(2):
                with monitor.enqueue(1, 5):
                    pass
            self.assertEqual(set(monitor.equal_values), {1})
            monitor.set_model(1, "unordered-queue")
            self.assertEqual(set(monitor.equal_values), set())
            monitor.set_model(1, "fifo-queue")
            self.assertEqual((set(monitor.equal_values), monitor.close()), ({1}, "legal"))


if __name__ == "__main__":
    unittest.main()
