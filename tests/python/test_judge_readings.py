"""Verdicts that rest on a guess: they are refused, with the options that settle them, and judged with these; also in shards."""
from __future__ import annotations

import json
import unittest
from typing import Any, Dict, List, Sequence, Tuple

from jepmon.forms.timeline import Timeline

from .test_judge_results import Judged

Row = Dict[str, Any]


def lines(rows: Sequence[Row]) -> str:
    return "".join(json.dumps(row) + "\n" for row in rows)


def operation(client: int, op: str, value: Any, start: int, key: int = 0) -> Row:
    return {"client": client, "key": key, "op": op, "value" if op in ("write", "enqueue") else "result": value, "start": start, "end": start + 1}


def event(client: int, kind: str, op: str, value: Any, time: int) -> Row:
    return {"client": client, "type": kind, "op": op, "key": 0, "value": value, "time": time}


APART = [operation(0, "write", 1, 1000), operation(0, "write", 2, 1004), operation(1, "read", 1, 2), operation(1, "read", 2, 6)]
# Two clients take turns before one recorder, and the clock of the second is behind.
TURNS = [event(client, kind, op, None if (op, kind) == ("read", "invoke") else value, time - 50 * client) for client, op, value, time in
         ((0, "write", 1, 100), (1, "read", 1, 102), (0, "write", 2, 104), (1, "read", 2, 106), (0, "write", 3, 108), (1, "read", 3, 110))
         for kind, time in (("invoke", time), ("ok", time + 1))]
MESSAGES = [operation(0, "enqueue", 1, 0), operation(0, "enqueue", 2, 2), operation(1, "dequeue", 2, 4), operation(1, "dequeue", 1, 6)]


class Readings(Judged):
    def settled(self, rows: Sequence[Row], said: str, ways: Sequence[Tuple[Tuple[str, ...], int]], first: Tuple[str, ...] = ()) -> None:
        """The history is refused with these words, and by each of these options has this status."""
        for shards in ((), ("--jobs", "1")):
            ran = self.judged(lines(rows), *first, *shards)
            self.assertEqual((ran.status, ran.out), (3, ""), shards)
            self.assertIn(said, ran.err)
            for words, status in ways:
                self.assertEqual(self.judged(lines(rows), *first, *words, "--no-cause", *shards).status, status, (words, shards))

    def test_clocks_that_are_apart(self) -> None:
        self.settled(APART, "the history is illegal, and by their times some clients had long ended when others began", [(("--skew", "0ms"), 1), (("--time-unit", "ms", "--skew", "2s"), 0)])
        self.assertEqual(self.judged(lines([dict(row, start=row["start"] % 1000, end=row["end"] % 1000) for row in APART])).status, 0)

    def test_clients_that_stand_together_and_are_apart(self) -> None:
        """Two clients' files, one behind the other, by clocks that differ: in every form of events."""
        rows = [event(client, kind, op, None if (op, kind) == ("read", "invoke") else value, time + 1000 * client)
                for client, op, value, time in ((0, "write", 1, 0), (0, "write", 2, 4), (1, "read", 1, 2), (1, "read", 2, 6))
                for kind, time in (("invoke", time), ("ok", time + 1))]
        self.settled(rows, "the history is illegal, and by their times some clients had long ended when others began",
                     [(("--skew", "0ms"), 1), (("--order", "lines"), 1), (("--time-unit", "ms", "--skew", "1s"), 0)])
        csv = "client,type,op,key,value,time\n" + "".join(",".join("" if field is None else str(field) for field in row.values()) + "\n" for row in rows)
        edn = "".join("{{:process {client}, :type :{type}, :f :{op}, :value [0 {part}], :time {time}}}\n".format(
            **row, part="nil" if row["value"] is None else row["value"]) for row in rows)
        for text, name in ((csv, "history.csv"), (edn, "history.edn"), (edn.replace("[0 ", "").replace("], :t", ", :key 0, :t"), "keyed.edn")):
            for shards in ((), ("--jobs", "1")):
                ran = self.judged(text, *shards, name=name)
                self.assertEqual(ran.status, 3, ran.err)
                self.assertIn("some clients had long ended when others began", ran.err)
                self.assertEqual(self.judged(text, "--skew", "0ms", *shards, name=name).status, 1)

    def test_clients_that_stand_together_and_are_near(self) -> None:
        """Their verdict stands, beside the guess; --strict-input refuses it."""
        rows = [event(client, kind, op, None if (op, kind) == ("read", "invoke") else 1, time + end) for client, op, time in
                ((0, "write", 0), (1, "read", 2)) for end, kind in enumerate(("invoke", "ok"))]
        for shards in ((), ("--jobs", "1")):
            ran = self.judged(lines(rows), *shards)
            self.assertEqual(ran.status, 0)
            self.assertIn("guess of the order: the times of all clients are of one clock, or of clocks that agree; --skew 0ms settles it", ran.err)
            self.assertEqual(self.judged(lines(rows), "--strict-input", "--model", "register", *shards).status, 3)
            for said in (("--skew", "0ms"), ("--order", "lines")):
                self.assertEqual(self.judged(lines(rows), "--strict-input", "--model", "register", *said, *shards).status, 0)

    def test_a_clock_that_is_behind_before_one_recorder(self) -> None:
        self.settled(TURNS, "in the order of their times, and legal if they took place in that of their lines; say --order times or --order lines",
                     [(("--order", "lines"), 0), (("--order", "times", "--skew", "0ms"), 1)])

    def test_the_model_of_a_queue(self) -> None:
        self.settled(MESSAGES, "say --model fifo-queue or --model unordered-queue", [(("--model", "fifo-queue"), 1), (("--model", "unordered-queue"), 0)])

    def test_two_guesses_together(self) -> None:
        rows = [operation(0, "read", "", 0), operation(0, "write", 1, 2), operation(0, "read", "1", 4)]
        self.settled(rows, "say --values exact or --values number, and --absent ''",
                     [(("--values", "number", "--absent", ""), 0), (("--values", "exact", "--nil-is-absent"), 1), (("--values", "number"), 3)])

    def test_a_guess_that_changes_nothing(self) -> None:
        rows = [operation(0, "write", 1, 0), operation(0, "write", "1", 2), operation(0, "read", 7, 4)]
        self.assertEqual(self.judged(lines(rows)).status, 1)
        self.assertEqual(self.judged(lines([*rows[:2], operation(0, "read", "1", 4)])).status, 0)

    def test_statuses_of_http(self) -> None:
        rows = [{**operation(0, "write", value, start), "code": code} for value, start, code in ((1, 0, 200), (2, 2, 409))]
        rows.append({**operation(1, "read", 2, 4), "code": 200})
        self.settled(rows, "and illegal if 4xx are failures; say a mapping file with \"outcomes\"", [])
        for outcome, status in (("info", 0), ("fail", 1)):
            (self.top / "m.json").write_text(json.dumps({"outcomes": {"409": outcome, "200": "ok"}}))
            self.assertEqual(self.judged(lines(rows), "--mapping", "m.json").status, status)

    def test_a_read_of_a_set_without_an_answer(self) -> None:
        rows = [{"client": 0, "key": 0, "op": "add", "value": 1, "start": 0, "end": 1}, {"client": 0, "key": 0, "op": "read", "start": 2, "end": 3}]
        self.settled(rows, "line 2: this read of the set 0 is ok, and has no answer", [])
        self.assertEqual(self.judged(lines([*rows[:1], {**rows[1], "result": []}])).status, 1)

    def test_an_ok_that_is_false(self) -> None:
        events: List[str] = []
        for process, f, answer in ((0, "acquire", "nil"), (1, "acquire", "false"), (0, "release", "nil")):
            events += [f"{{:type :invoke, :process {process}, :f :{f}, :value [0 nil]}}", f"{{:type :ok, :process {process}, :f :{f}, :value [0 {answer}]}}"]
        text = "\n".join(events) + "\n"
        ran = self.judged(text, name="history.edn")
        self.assertEqual(ran.status, 3, ran.err)
        self.assertIn("--outcome false=fail or --outcome false=ok", ran.err)
        self.assertEqual([self.judged(text, "--outcome", f"false={kind}", name="history.edn").status for kind in ("fail", "ok")], [0, 1])


class Clocks(unittest.TestCase):
    def test_groups_of_clients(self) -> None:
        for spans, are_apart in (
                ([(0, 0, 9), (1, 5, 12)], False), ([(0, 0, 9), (1, 20, 29)], False), ([(0, 0, 9), (0, 10, 11), (1, 100, 109)], True),
                ([(0, 0, 9), (1, 100, 109)], False), ([(0, 0, 9), (1, 2000, 2009)], True), ([(0, 0, 1), (0, 100, 101), (1, 50, 51)], False)):
            timeline = Timeline()
            for client, call, end in spans:
                timeline.operation(client, call, end, "ok", None, None)
            self.assertEqual(timeline.are_apart(), are_apart, spans)


if __name__ == "__main__":
    unittest.main()
