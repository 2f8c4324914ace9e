"""Causes in words: their sentences about wrong histories whose fault is known, and that these sentences are true."""
from __future__ import annotations

import random
import unittest
from typing import Any, Dict, Iterator, List

from jepmon import history, program
from jepmon.causes import cause
from jepmon.causes.case import Case
from jepmon.causes.effort import ASKING, WHOLE, Effort
from jepmon.causes.names import Names
from jepmon.history.kinds import ABSENT
from jepmon.objects.configurations import UNBOUNDED, WORK, walk

from . import TOP, fuzz, recorded, stores
from .histories import NAMES, Clients, Way


def explained(text: str, options: program.Options, names: Names = Names(), shrink: bool = True, work: int = WORK) -> cause.Cause:
    report = program.check(text.encode(), options)
    found = cause.explain(history.read_history(text), report, options, names, shrink=shrink, effort=Effort(work=work))
    assert found is not None
    return found


def said_of(found: cause.Cause) -> str:
    return "\n".join([found.headline, *found.sentences])


EXAMPLES = {
    ("stale-read.edn", "register"): """\
Client 1 read 1 from key 7, which could not hold 1 any more.
While it was open (events 4 to 5), key 7 can have held 2, never 1. jepmon says that the answer 2 would have been legal.
1 was last possible just before event 3, the :ok of client 0's write of 2.
1 was brought in by client 0's write of 1 (events 0 to 1).""",
    ("cas-over-another-value.edn", "cas-register"): """\
Client 0's cas from 1 to 2 took place on key 7, which could not hold 1 any more.
While it was open (events 4 to 5), key 7 can have held 3, never 1. jepmon says that a :fail would have been legal.
1 was last possible just before event 3, the :ok of client 1's write of 3.
1 was brought in by client 0's write of 1 (events 0 to 1).""",
    ("mutex-held-twice.edn", "mutex"): """\
Client 1 acquired lock 4, which client 0 had acquired and not released.
Client 0 had acquired it (events 0 to 1), and no release had begun since.
jepmon says that a :fail would have been legal.""",
    ("mutex-held-twice.edn", "register"): """\
Key 4 is judged by the model register, which has no acquire. So it never takes place.
Was --model mutex meant?""",
    ("queue-out-of-order.edn", "fifo-queue"): """\
Client 1 took 6 from queue 1 before 5, which had been put in earlier.
Client 0 had put in 5 (events 0 to 1) before client 0 began to put in 6 (event 2), and no dequeue had answered 5.
While it was open (events 4 to 5), it can have found 5. jepmon says that the answer 5 would have been legal.""",
    ("delivered-twice.edn", "unordered-queue"): """\
Client 1 took 5 from queue 1, which client 0 had taken already.
5 was put in once, by client 0 (events 0 to 1), and had been taken once before, by client 0 (events 2 to 4).
While it was open (events 3 to 5), there was nothing that it can have found.
jepmon says that a :fail would have been legal.""",
    ("delivered-but-never-sent.edn", "unordered-queue"): """\
Client 0 took 7 from queue 1, but nobody had put it in.
While it was open (events 4 to 5), it can have found 5 or 6. jepmon says that each of these answers would have been legal.""",
}
STORES = {
    "stale_replica": """\
Client 3 read 200 from key 3, which could not hold 200 any more.
While it was open (events 39 to 47), key 3 can have held 203, 503 or 504, never 200. jepmon says that each of these answers would \
have been legal.
200 was last possible just before event 33, the :ok of client 4's write of 502.
200 was brought in by client 1's write of 200 (events 4 to 14).""",
    "two_winners": """\
Client 1's cas from 4 to 3 on key 9 was recorded as failed (event 56), but it must have taken place.
Without it no order of the operations is possible from event 50 on, the :ok of client 2's read of 3.
jepmon says that an :info would have been legal. Only what certainly did not take place may be recorded as :fail.""",
    "lease_runs_out": """\
Client 3 acquired lock 2, which client 1 had acquired and not released.
Client 1 had acquired it (events 19 to 40), and in no order of the operations had it been released since.
jepmon says that a :fail would have been legal.""",
    "delivered_twice": """\
Client 3 took 1022 from queue 1, which client 2 had taken already.
1022 was put in once, by client 0 (events 190 to 194), and had been taken once before, by client 2 (events 214 to 215).
While it was open (events 216 to 220), it can have found 1023, 1024, 1025, 1026, 2025, 2026 or 2 others. jepmon says that the answer \
1023, 1024, 1025 or 1026 (the first 4 of 8) would have been legal.""",
    "out_of_order": """\
Client 3 took 2025 from queue 1 before 1023, which had been put in earlier.
Client 0 had put in 1023 (events 196 to 197) before client 1 began to put in 2025 (event 199), and no dequeue had answered 1023.
While it was open (events 216 to 220), it can have found 1023. jepmon says that the answer 1023 would have been legal.""",
    "invented": """\
Client 3 took 99999 from queue 1, but nobody had put it in.
While it was open (events 216 to 220), it can have found 1023. jepmon says that the answer 1023 would have been legal.""",
    "lost_member": """\
Client 1's read of set 5 lacks 203, which had been added before.
203 was added by client 2 (events 21 to 23), and the read began after that, at event 60.
jepmon says that with 203 as well this read would have been legal.""",
}


@unittest.skipUnless(fuzz.has_program(), "there is no program")
class Words(unittest.TestCase):
    maxDiff = None

    def test_examples(self) -> None:
        for (name, model), want in EXAMPLES.items():
            with self.subTest(name, model=model):
                found = explained((TOP / "examples" / name).read_text(), program.Options(2, model))
                self.assertEqual(said_of(found), want)

    def test_wrong_stores(self) -> None:
        for name, want in STORES.items():
            with self.subTest(name):
                made = stores.WRONG[name]()
                self.assertEqual(said_of(explained(made.text, program.Options(made.concurrency, made.model))), want)

    def test_unknown(self) -> None:
        made = stores.UNKNOWN["many_timeouts"]()
        found = explained(made.text, program.Options(made.concurrency, made.model, by_ends=True))
        self.assertEqual(found.headline, "At event 77 more than 4,096 outcomes were possible for key 0, which is its budget: from there "
                         "on jepmon does not judge it.")
        self.assertEqual("\n".join(found.sentences[1:]), """\
Possible outcomes just before an ok: 202 at event 5, 428 at event 7, 620 at event 15, 1,540 at event 73, more than 4,096 at event 77.
1 operation had timed out, and may take place at any later moment: client 2's write of 303 (event 35, ×3.5).
5 operations were open at once: client 3's read (event 65, ×8.6), client 2's read (event 71, ×7.6), client 4's read (event 75, ×4.1), \
client 0's write of 103 (event 72, ×3.5) and client 1's write of 209 (event 76, ×2.6).
× says how many times as many outcomes there are as without the operation.
In the next test let fewer clients use one key at once.""")
        self.assertIsNone(found.part)

    def test_an_acquire_that_failed(self) -> None:
        """A lock that nobody had acquired except a client whose acquire failed."""
        text = (TOP / "tests" / "cases" / "failed_acquire_is_not_released" / "stdin").read_text()
        found = explained(text, program.Options(2, "mutex"))
        self.assertEqual(found.sentences[0], "Nobody had acquired it before: client 0's acquire had failed (event 1).")

    def test_numbers_of_one_and_two(self) -> None:
        text = (TOP / "examples" / "mutex-held-twice.edn").read_text()
        self.assertIn("Both operations of the key up to the illegal event:", cause.lines(explained(text, program.Options(2, "mutex"))))
        found = explained("\n".join(text.splitlines()[:3]), program.Options(2, "mutex", 1))
        self.assertEqual(found.headline[:47], "At event 1 more than 1 outcome was possible for")

    def test_the_greatest_budget(self) -> None:
        """The program's result for the history with this answer."""
        text = (TOP / "tests" / "cases" / "check_of_a_blown_and_a_dead_key" / "history.edn").read_text()
        options = program.Options(2, "fifo-queue", 4, by_ends=True)
        blown = "".join(text.splitlines(True)[:3])
        self.assertEqual(explained(blown, options).sentences[0], "jepmon says that with --budget 65536 this key is legal to its end.")
        wrong = blown + ("{:type :invoke, :process 0, :f :dequeue, :value [1 nil]}\n{:type :ok, :process 0, :f :dequeue, :value [1 9]}\n")
        self.assertEqual(explained(wrong, options).sentences[0], "jepmon says that with --budget 65536 this key is illegal, at event 4.")

    def test_text(self) -> None:
        """The part with its events, and what the sentences say of these."""
        found = explained((TOP / "examples" / "stale-read.edn").read_text(), program.Options())
        self.assertEqual(cause.lines(found)[-8:], [
            "All 3 operations of the key up to the illegal event:",
            "    event 0, line 2: {:type :invoke, :process 0, :f :write, :value [7 1]}",
            "    event 1, line 3: {:type :ok, :process 0, :f :write, :value [7 1]}    <-- 1 comes in",
            "    event 2, line 4: {:type :invoke, :process 0, :f :write, :value [7 2]}",
            "    event 3, line 5: {:type :ok, :process 0, :f :write, :value [7 2]}    <-- from here on 1 is impossible",
            "    event 4, line 6: {:type :invoke, :process 1, :f :read, :value [7 nil]}",
            "    event 5, line 7: {:type :ok, :process 1, :f :read, :value [7 1]}",
            "The verdict and jepmon's answers are proved. The other sentences are not."])

    def test_names(self) -> None:
        """Values and keys as they were before they were numbered."""
        text = (TOP / "examples" / "stale-read.edn").read_text().replace("[7 2]", f"[7 {ABSENT}]")
        found = explained(text, program.Options(), Names({1: '"blue"'}, {7: ":x"}))
        self.assertEqual(found.headline, 'Client 1 read "blue" from key :x, which could not hold "blue" any more.')
        self.assertIn("key :x can have held ABSENT", found.sentences[0])
        self.assertIn('    event 5, line 7: {:type :ok, :process 1, :f :read, :value [:x "blue"]}', cause.lines(found))

    def test_each_recorded_case(self) -> None:
        """Each wrong history of the repository has a cause."""
        count = 0
        for judged in recorded.checks():
            if judged.verdict == "legal" or len(judged.events) > 2000:
                continue
            with self.subTest(judged.name):
                options = program.Options(judged.concurrency, judged.model, judged.budget, by_ends=True)
                text = "".join(event.text + "\n" for event in judged.events)
                found = explained(text, options)
                self.assertEqual(found.verdict, judged.verdict)
                self.assertTrue(found.headline.endswith("."))
                self.assertNotIn("too many orders", said_of(found))
                count += 1
        self.assertGreater(count, 15)

    def test_where_the_walk_gives_up(self) -> None:
        """The sentences are true of the smallest part; without one they have only the program's replies."""
        made = stores.WRONG["stale_replica"]()
        for shrink, want in ((True, """\
Client 3 read 200 from key 3, which could not hold 200 any more.
There were too many orders of the whole history to try within the limit of work: what follows is true of the part below by itself.
While it was open (events 39 to 47), key 3 can have held 203, never 200. jepmon says that the answer 203 would have been legal.
200 was last possible just before event 38, the :ok of client 0's read of 203.
200 was brought in by client 1's write of 200 (events 4 to 14)."""), (False, """\
Client 3's read of 200 on key 3 fits no order of the operations.
There were too many orders to try within the limit of work: nobody knows which one it might have fitted.""")):
            with self.subTest(shrink=shrink):
                options = program.Options(made.concurrency, made.model)
                self.assertEqual(said_of(explained(made.text, options, shrink=shrink, work=100)), want)

    def test_without_effort(self) -> None:
        """The sentences name omitted parts, and the same at each try, however busy the machine is."""
        made = stores.WRONG["stale_replica"]()
        options = program.Options(made.concurrency, made.model)
        events, report = history.read_history(made.text), program.check(made.text.encode(), options)
        another, smallest = "what jepmon says of another answer", "the smallest illegal part"
        for effort, left_out, finished in ((0, [another, smallest], None), (4.5 * ASKING, [smallest], None), (5.5 * ASKING, [], False),
                                           (WHOLE, [], True)):
            found = cause.explain(events, report, options, effort=Effort(effort))
            assert found is not None
            self.assertEqual(found.part.finished if found.part is not None else None, finished, effort)
            self.assertEqual([sentence for sentence in found.sentences if "limit of work" in sentence],
                             [f"Left out, since the limit of work was met: {'; '.join(left_out)}."] if left_out else [])
            met = "the limit of the search was met, and more might be removed"
            self.assertEqual(any(met in line for line in cause.lines(found)), finished is False)

    def test_legal(self) -> None:
        text = (TOP / "examples" / "write-then-read.edn").read_text()
        self.assertIsNone(cause.explain(history.read_history(text), program.check(text.encode()), program.Options()))


def illegal_cases(model: str, each: int, seed: int = 0) -> Iterator[Case]:
    """Cases of random histories that are illegal, by the walk."""
    draw = random.Random(f"{model} {seed}")
    while each > 0:
        way = Way(events=draw.choice((8, 16, 30)), clients=draw.choice((2, 3, 4)), wrong=0.1, crash=draw.choice((0.05, 0.2)), values=4,
                  patience=0.8)
        events = Clients(draw, way.clients).history(model, way)
        walked = walk(events, model, UNBOUNDED)
        if walked.status == "dead":
            each -= 1
            front = [step.event for step in walked.steps]
            made = history.operations(front, way.clients)
            fatal = next(operation for operation in made if operation.completion is front[-1])
            yield Case(model, 0, front, made, fatal, events[len(front):], walked, program.Options(way.clients, model), Names(), None, Effort(0))


def is_legal(model: str, events: List[history.Event]) -> bool:
    return walk(events, model, UNBOUNDED).status == "alive"


class Facts(unittest.TestCase):
    """The facts behind the sentences, compared with histories that have other events instead."""

    EACH = max(30, fuzz.EACH)

    def test_findings(self) -> None:
        """The answers that are legal in place of the fatal one are what it can have found."""
        answers: Dict[str, List[Any]] = {model: list(range(4)) for model in NAMES}
        answers["set"] = [frozenset(value for value in range(4) if number >> value & 1) for number in range(16)]
        for model in ("register", "cas-register", "fifo-queue", "unordered-queue", "set"):
            for case in illegal_cases(model, self.EACH):
                if case.fatal.outcome == "ok" and case.fatal.invocation.name in ("read", "dequeue"):
                    legal = [answer for answer in answers[model]
                             if is_legal(model, case.front[:-1] + [case.front[-1]._replace(value=answer)])]
                    self.assertEqual(legal, sorted((found for found in case.findings() if found is not None), key=answers[model].index))

    def test_held(self) -> None:
        """The values that a register held while the operation was open are those that a read in its place may answer."""
        for case in illegal_cases("cas-register", self.EACH):
            at = case.front.index(case.fatal.invocation)
            read = case.front[at]._replace(name="read", value=None)
            events = case.front[:at] + [read] + case.front[at + 1:-1]
            legal = [answer for answer in range(4)
                     if is_legal("cas-register", events + [case.front[-1]._replace(kind="ok", name="read", value=answer)])]
            if case.fatal.outcome == "ok":
                self.assertEqual(legal, [state for state in case.held() or [] if state is not None])

    def test_last_possible(self) -> None:
        """Just before the event a read may answer the value, and after it no more."""
        count = 0
        for case in illegal_cases("register", 4 * self.EACH):
            value = case.front[-1].value
            ended = case.last_possible(lambda state: bool(state == value)).event if case.fatal.outcome == "ok" else None
            if ended is not None:
                at = case.front.index(ended)
                self.assertTrue(self.may_read(case, at, value))
                self.assertFalse(any(self.may_read(case, later, value) for later in range(at + 1, len(case.front))))
                count += 1
        self.assertGreater(count, self.EACH // 2)

    def may_read(self, case: Case, at: int, value: Any) -> bool:
        """Whether the fatal read may answer the value just before this event: another read, where it is not open yet."""
        answered = case.front[-1]._replace(value=value)
        if case.fatal.invocation in case.front[:at]:
            return is_legal("register", case.front[:at] + [answered])
        other = case.front[-1].process + 1000
        return is_legal("register", case.front[:at] + [case.fatal.invocation._replace(process=other), answered._replace(process=other)])

    def test_forced(self) -> None:
        """An event after which a failed operation must have taken place: with its :fail before that event, or just after it."""
        for model in NAMES:
            for case in illegal_cases(model, self.EACH):
                if case.fatal.outcome == "fail":
                    forced = case.forced_by()
                    assert forced is not None
                    at = case.front.index(forced)
                    self.assertFalse(is_legal(model, case.front[:at + 1] + [case.front[-1]]))
                    self.assertTrue(is_legal(model, case.front[:at] + [case.front[-1]]))
