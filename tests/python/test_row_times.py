"""The order of rows: times of a stated unit, dates, clock errors, events whose times go back, and rows that are there twice."""
from __future__ import annotations

import random
import unittest
from typing import Any, Dict, List

from jepmon.forms.mapping import Mapping
from jepmon.forms.order import APART, ONE_CLOCK

from .translated import Case, events, lines, made, operation

SAYS = Mapping()


def event(client: Any, kind: str, time: Any = None, op: str = "acquire", **fields: Any) -> Dict[str, Any]:
    row = {"client": client, "type": kind, "op": op, "key": "L", "ts": time, **fields}
    return {name: field for name, field in row.items() if field is not None}


# Two clients that hold one lock, their files one behind the other: in the order of the times the second acquires before the first releases.
HELD = (event("a", "invoke", 1.5), event("a", "ok", 2.5), event("a", "invoke", 7.5, "release"), event("a", "ok", 8.5, "release"),
        event("b", "invoke", 3.5), event("b", "ok", 4.5))
IN_ORDER = ["invoke 0 acquire [0 nil]", "ok 0 acquire [0 nil]", "invoke 1 acquire [0 nil]", "ok 1 acquire [0 nil]",
            "invoke 0 release [0 nil]", "ok 0 release [0 nil]"]


class Units(Case):
    def two(self, first: Dict[str, Any], second: Dict[str, Any], **options: Any) -> List[str]:
        """The events of two operations, in short."""
        rows = [operation(start=..., end=..., client=client, value=client, **fields) for client, fields in enumerate((first, second))]
        return [" ".join(line.split()[:2]) for line in events(lines(*rows), **options)]

    def test_stated_units_are_converted(self) -> None:
        one_after_other, at_once = ["invoke 0", "ok 0", "invoke 1", "ok 1"], ["invoke 0", "invoke 1", "ok 0", "ok 1"]
        self.assertEqual(self.two({"start_ms": 1, "end_ns": 2_000_000}, {"start_ms": 3, "end_ns": 4_000_000}), one_after_other)
        # A return in milliseconds may be anywhere within its millisecond.
        self.assertEqual(self.two({"start_ns": 1_000_000, "end_ms": 2}, {"start_ns": 2_500_000, "end_ms": 3}), at_once)
        self.assertEqual(self.two({"start_s": 1, "end_s": 2.5}, {"start_s": 2.75, "end_s": 3}), one_after_other)

    def test_a_unit_beside_none_is_refused(self) -> None:
        rows = lines(operation(start=..., start_ms=1, end=2))
        self.refused(rows, "line 1: 2 is a time of another kind than those before it")
        self.assertEqual(len(events(rows, mapping=SAYS._replace(time_unit="ms"))), 2)

    def test_dates_with_a_zone_and_without_one(self) -> None:
        self.refused(lines(operation(start="2024-05-01T10:00:00Z", end="2024-05-01T10:00:01Z"),
                           operation(start="2024-05-01T12:00:02", end="2024-05-01T12:00:03")), "2024-05-01T12:00:02 has no time zone")

    def test_durations(self) -> None:
        found = self.two({"call": "2024-05-01T10:00:00Z", "duration_ms": 3}, {"call": "2024-05-01T10:00:00.002Z", "duration_ms": 3})
        self.assertEqual(found, ["invoke 0", "invoke 1", "ok 0", "ok 1"])
        self.assertEqual(self.two({"return_ms": 10, "took_ms": 4}, {"return_ms": 20, "took_ms": 4}), ["invoke 0", "ok 0", "invoke 1", "ok 1"])
        self.refused(lines(operation(end=..., duration=3, start_ms=1, start=...)), "the unit of the duration 3 is not known")
        self.refused(lines(operation(end=..., duration_ms=3)), "the unit of the time 1 is not known: say --time-unit")

    def test_a_unit_by_its_size_is_a_guess(self) -> None:
        text = lines(operation(end=..., duration_ms=3, start=1764410400000))
        self.assertIn("--time-unit", self.guessed(text))
        self.assertNotIn("--time-unit", self.guessed(text, mapping=SAYS._replace(time_unit="ms")))

    def test_durations_beside_returns_are_not_looked_at(self) -> None:
        found = made(lines(operation(latency_ms=3), operation(end=..., latency_ms=3, start=5)))
        self.assertEqual([line.split()[0] for line in events(lines(operation(latency_ms=3), operation(end=..., latency_ms=3, start=5)))],
                         ["invoke", "ok", "invoke"])
        self.assertEqual(found.account.fields, ["latency_ms (2)"])

    def test_a_return_that_is_the_largest_number_never_came(self) -> None:
        self.assertEqual(len(events(lines(operation(), operation(start=3, end=(1 << 63) - 1)))), 3)

    def test_no_operation_has_returned(self) -> None:
        self.refused(lines(operation(end=..., finito=2), operation(end=..., finito=4, start=3)), "none of its 2 operations has a time of its return")


class Skew(Case):
    def test_intervals_are_wider_by_the_clock_error(self) -> None:
        text = lines(operation(start_ms=10, end_ms=20, start=..., end=...), operation(client=1, start_ms=29, end_ms=40, start=..., end=...))
        for skew, order in (("4ms", ["invoke 0", "ok 0", "invoke 1", "ok 1"]), ("5ms", ["invoke 0", "invoke 1", "ok 0", "ok 1"])):
            self.assertEqual([line[:line.index(" w")] for line in events(text, mapping=SAYS._replace(skew=skew))], order)

    def test_orders_that_it_costs_are_counted(self) -> None:
        text = lines(operation(start_ms=10, end_ms=20, start=..., end=...), operation(start_ms=25, end_ms=30, start=..., end=...),
                     operation(start_ms=31, end_ms=40, start=..., end=..., key="y"))
        self.assertTrue(any("wrong by 5ms: 1 orders of two operations of a key" in note for note in made(text, mapping=SAYS._replace(skew="5ms")).notes))

    def test_events_are_paired(self) -> None:
        rows = [event("a", "invoke", None, ts_ms=1), event("a", "ok", None, ts_ms=2), event("b", "invoke", None, ts_ms=3), event("b", "ok", None, ts_ms=4)]
        self.assertEqual([line[:4] for line in events(lines(*rows), mapping=SAYS._replace(skew="1ms"))], ["invo", "invo", "ok 0", "ok 1"])

    def test_it_needs_a_unit(self) -> None:
        self.refused(lines(operation()), "the unit of the time 1 is not known: say --time-unit", mapping=SAYS._replace(skew="5ms"))
        self.refused(lines(operation(), operation(start=5)), "", mapping=SAYS._replace(skew="5 apples", time_unit="ms"))

    def test_that_clocks_agree_is_a_guess(self) -> None:
        text = lines(operation(), operation(client=1, start=3, end=4))
        self.assertIn("--skew 0ms", self.guessed(text))
        self.assertNotIn("--skew 0ms", self.guessed(text, mapping=SAYS._replace(skew="0ms", time_unit="ms")))


class TimesThatGoBack(Case):
    def test_floats_dates_and_integers(self) -> None:
        dates = [dict(row, ts=f"2024-05-01T10:00:0{row['ts']}Z") for row in HELD]
        for rows in (HELD, dates, [dict(row, ts=int(2 * row["ts"])) for row in HELD], [dict(row, ts=str(row["ts"])) for row in HELD]):
            self.assertEqual(events(lines(*rows)), IN_ORDER)
            self.assertIn("--order times", self.guessed(lines(*rows)))

    def test_the_order_of_the_lines_may_be_said(self) -> None:
        found = events(lines(*HELD), mapping=SAYS._replace(order="lines"))
        self.assertEqual(found, [*IN_ORDER[:2], *IN_ORDER[4:], *IN_ORDER[2:4]])

    def test_one_without_a_time_is_refused(self) -> None:
        self.refused(lines(*HELD[:5], event("b", "ok")), "line 6: this event has no time, and times go back in line 5: which came first?")

    def test_of_one_client_they_are_sorted_if_it_is_said(self) -> None:
        rows = [*HELD[2:4], *HELD[:2], *HELD[4:]]
        self.refused(lines(*rows), 'line 3: the times of client "a" go back: say --order times')
        self.assertEqual([line.split()[2] for line in events(lines(*rows), mapping=SAYS._replace(order="times"))],
                         ["acquire", "acquire", "acquire", "acquire", "release", "release"])

    def test_faults_are_put_among_them(self) -> None:
        fault, = made(lines(*HELD, event("nemesis", "info", 3.0, "kill"))).faults
        self.assertEqual((fault.text, fault.begin), ("kill", 2))

    def test_an_index_that_falls(self) -> None:
        rows = [event("a", "invoke", index=0), event("a", "ok", index=1), event("a", "invoke", None, "release", index=0)]
        self.refused(lines(*rows), "line 3: index goes from 1 to 0: the events are out of order, or of two histories")


class Times(Case):
    def test_equal_ones_are_a_guess(self) -> None:
        rows = [event(1, "invoke", 5), event(1, "ok", 5), event(0, "invoke", 5, "release"), event(0, "ok", 5, "release")]
        self.assertIn("--order lines or --order times", self.guessed(lines(*rows)))
        self.assertEqual([line[:4] for line in events(lines(*rows), mapping=SAYS._replace(order="times"))], ["invo", "invo", "ok 0", "ok 1"])

    def test_none_and_clients_that_stand_together(self) -> None:
        """The first event is not known; for few events it is a guess."""
        rows = [event(client, kind, None, op) for client in (0, 1) for op in ("acquire", "release") for kind in ("invoke", "ok")]
        self.refused(lines(*rows), "line 5: the events of each client stand together, as in files put one behind the other, and have no times: "
                     "which came first? say --order lines if the order of the lines is the order of the events")
        self.assertEqual(len(events(lines(*rows), mapping=SAYS._replace(order="lines"))), 8)
        self.assertIn("--order lines", self.guessed(lines(*rows[:6])))
        self.assertNotIn("--order lines", self.guessed(lines(*rows, *rows[:4])))
        self.assertNotIn("--order lines", self.guessed(lines(*rows[:4])))
        self.assertEqual(self.guessed(lines(*({**row, "index": place} for place, row in enumerate(rows)))), self.guessed(lines(*rows[:4])))

    def test_clients_that_stand_together_have_one_clock(self) -> None:
        """That is a guess, unless another client or an index shows who recorded them; by each way to read a row."""
        for count in (1, 9):
            rows = [event(client, kind, (count * client + place) * 2 + end, "write", value=place) for client in (0, 1) for place in range(count)
                    for end, kind in enumerate(("invoke", "ok"))]
            for given in (rows, [{**row, "ts": str(row["ts"])} for row in rows]):
                self.assertEqual(self.assumed(lines(*given)), [ONE_CLOCK])
                for said in ({"skew": "0ms"}, {"order": "lines"}):
                    self.assertEqual(self.assumed(lines(*given), mapping=SAYS._replace(**said)), [])
                self.assertEqual(self.assumed(lines(*given, event(0, "invoke", 99, "write", value=0))), [])
                self.assertEqual(self.assumed(lines(*({**row, "index": place} for place, row in enumerate(given)))), [])
            far = [{**row, "ts": row["ts"] + 9999 * row["client"]} for row in rows]
            self.assertEqual(self.assumed(lines(*far)), [APART])

    def test_nodes_that_stand_together_have_one_clock(self) -> None:
        events = [(client, kind) for node in (0, 2) for kind in ("invoke", "ok") for client in (node, node + 1)]
        rows = [event(client, kind, time, "write", value=1) for time, (client, kind) in enumerate(events)]
        self.assertEqual(self.assumed(lines(*rows)), [ONE_CLOCK])
        bare = [{name: field for name, field in row.items() if name != "ts"} for row in rows]
        self.assertIn("the events of some clients stand behind those of all others, as in files put one behind the other, and have no times",
                      self.assumed(lines(*bare))[0])
        self.assertEqual(self.assumed(lines(*bare, *bare[:2])), [])

    def test_times_that_not_all_have(self) -> None:
        rows = [event(client, kind, 5 if client == 0 else None, op) for client in (0, 1) for op in ("acquire", "release") for kind in ("invoke", "ok")]
        self.refused(lines(*rows), "and not all have times: which came first? say --order lines")

    def test_events_that_carry_the_begin_of_their_operation(self) -> None:
        rows = [{"client": 0, "type": kind, "op": "write", "key": 1, "value": 1, "start": 1, **({"end": 2} if kind == "ok" else {})}
                for kind in ("invoke", "ok")]
        self.assertEqual(events(lines(*rows)), ["invoke 0 write [1 1]", "ok 0 write [1 1]"])


class Unfinished(Case):
    ROWS = (event("a", "invoke", 1, "write", value=1), event("a", "invoke", 2, "write", value=2), event("a", "ok", 3, "write", value=2))

    def test_what_is_open_as_its_client_goes_on_never_returned(self) -> None:
        self.assertEqual([line.split()[0] for line in events(lines(*self.ROWS))], ["invoke", "info", "invoke", "ok"])
        self.assertIn("--unfinished info", self.guessed(lines(*self.ROWS)))
        self.assertNotIn("--unfinished info", self.guessed(lines(*self.ROWS), mapping=SAYS._replace(unfinished=True)))

    def test_a_completion_of_another_operation_is_refused(self) -> None:
        self.refused(lines(*self.ROWS[:2], event("a", "ok", 3, "write", value=1)), "are several operations of a client open at once?")

    def test_a_row_that_is_there_twice(self) -> None:
        self.refused(lines(self.ROWS[0], *self.ROWS), "line 2: this row is that of line 1 in each field")


class Twice(Case):
    def test_an_operation(self) -> None:
        self.refused(lines(operation(), operation()), "line 2: this operation is that of line 1 in each field, also in its times")
        self.assertEqual(len(events(lines(operation(seq=1), operation(seq=2)))), 4)

    def test_a_read_changes_nothing(self) -> None:
        self.assertEqual(len(events(lines(*[operation(op="read")] * 2))), 4)


class Lost(unittest.TestCase):
    def test_against_all_pairs(self) -> None:
        draw = random.Random(4)
        for _ in range(40):
            rows = [operation(key=draw.choice("xy"), start=call, end=call + draw.randrange(9), seq=number)
                    for number, call in enumerate(draw.randrange(40) for _ in range(12))]
            want = sum(one["end"] < other["start"] <= one["end"] + 6 for one in rows for other in rows if one["key"] == other["key"])
            notes = made(lines(*rows), mapping=SAYS._replace(skew="3ms", time_unit="ms")).notes
            self.assertTrue(any(f"by 3ms: {want} orders" in note for note in notes), (want, notes))


if __name__ == "__main__":
    unittest.main()
