"""The page of rates: the gathered operations and faults, and the texts of the page."""
from __future__ import annotations

import itertools
import random
import re
import unittest
from typing import List

from jepmon import rates
from jepmon.history.fault_notes import OVER, note_line
from jepmon.history.fault_texts import kind_of, nodes_of, plain
from jepmon.history.line import event_line
from jepmon.rates.charts import nice, ticks
from jepmon.rates.gathered import COLUMNS, Gathered
from jepmon.rates.history import Fault, joined
from jepmon.rates.moments import Moments
from jepmon.rates.strips import depths, rows
from jepmon.rates.tables import effects

SECOND = 1_000_000_000
MS = 1_000_000


def event(kind: str, process: int, name: str, key: int, part: str, seconds: float) -> str:
    return event_line(kind, process, name, key, part, f", :time {round(seconds * SECOND)}")


def note(kind: str, text: str, seconds: float) -> str:
    return note_line(kind, text, round(seconds * SECOND))


SMALL = [
    "; a comment",
    event("invoke", 0, "write", 7, "-9223372036854775808", 0.0), event("ok", 0, "write", 7, "-9223372036854775808", 0.0),
    event("invoke", 0, "write", 7, "1", 1.0), event("invoke", 1, "read", 7, "nil", 1.001), event("ok", 0, "write", 7, "1", 1.004),
    note("begin-fault", "n1 is down, by kill -9", 2.0),
    event("ok", 1, "read", 7, "1", 2.001), event("invoke", 1, "cas", 8, "[1 2]", 2.1), event("fail", 1, "cas", 8, "[1 2]", 2.2),
    event("invoke", 2, "read", 8, "nil", 2.3), event("info", 2, "read", 8, "nil", 3.3),
    note("end-fault", "n1 is down, by kill -9", 4.0),
    event("invoke", 0, "read", 7, "nil", 4.5), event("ok", 0, "read", 7, "1", 4.6), note("note", "all is mended", 4.7),
    event("invoke", 3, "write", 7, "5", 4.8),
]


class Gathers(unittest.TestCase):
    def test_of_a_small_history(self) -> None:
        gathered = Gathered()
        found = rates.read(SMALL, gathered)
        counts = {(name, outcome): gathered.count(name, outcome) for name in gathered.names for outcome in ("ok", "fail", "info")}
        self.assertEqual({sort: count for sort, count in counts.items() if count},
                         {("read", "ok"): 2, ("read", "info"): 1, ("write", "ok"): 1, ("cas", "fail"): 1})
        self.assertEqual(dict(gathered.open), {"write": 1})
        self.assertEqual(gathered.most["write", "ok"], 4 * MS)
        self.assertEqual(found.faults, [Fault("n1 is down, by kill -9", 2 * SECOND, 4 * SECOND), Fault("all is mended", 4700 * MS, 4700 * MS)])
        self.assertEqual([(key, each.ok, each.fail, each.info, each.open) for key, each in found.keys.items()],
                         [(7, 3, 0, 0, 1), (8, 0, 1, 1, 0)])
        effect = effects(gathered, found.faults)[0]
        self.assertAlmostEqual(effect.without / SECOND, 2.6, delta=0.01)  # from the ok at 2.001 to that at 4.6
        self.assertAlmostEqual((effect.until_ok or 0) / SECOND, 0.6, delta=0.01)
        self.assertEqual(effects(gathered, [Fault(OVER, 4700 * MS, 4700 * MS)]), [])

    def test_quantiles_are_exact_to_a_part_in_64(self) -> None:
        draws = random.Random(3)
        gathered, took = Gathered(), sorted(round(10 ** draws.uniform(3, 10)) for _ in range(5000))
        for number, each in enumerate(took):
            gathered.add("read", "ok", number * MS, number * MS + each)
        for share in (0.5, 0.9, 0.99, 0.999, 1.0):
            exact = took[max(0, -(-round(share * 5000)) - 1)]
            self.assertTrue(exact <= gathered.quantile(("read", "ok"), share) <= exact * (1 + 1 / 64), share)

    def test_columns_are_joined(self) -> None:
        gathered = Gathered()
        for number in range(20_000):
            gathered.add("read", "ok", number * 100 * MS, number * 100 * MS + MS)
        self.assertLessEqual(gathered.end // gathered.column, COLUMNS)
        self.assertLessEqual(len(gathered.ended["read", "ok"]), COLUMNS)
        self.assertEqual(gathered.count("read", "ok"), 20_000)
        self.assertEqual(sum(gathered.cells["read", "ok"].values()), 20_000)

    def test_what_has_no_time_is_counted(self) -> None:
        found = rates.read(["{:type :invoke, :process 0, :f :read, :value [0 nil]}", "[:model 3 :mutex]"], Gathered())
        self.assertEqual(found.untimed, 1)

    def test_a_fault_without_an_end(self) -> None:
        found = rates.read([note("begin-fault", "cut", 1.0), *SMALL[:6]], Gathered())
        self.assertEqual(found.faults, [Fault("cut", SECOND, 1004 * MS)])


class Gaps(unittest.TestCase):
    def test_the_longest_gap(self) -> None:
        moments = Moments()
        for at in (100, 200, 900, 5000):
            moments.add(at * MS)
        for begin, end, gap in ((0, 100, 100), (150, 180, 100), (150, 700, 700), (300, 800, 700), (950, 960, 4100), (100, 900, 700),
                                (5500, 9000, 4000)):
            self.assertAlmostEqual(moments.longest_gap(begin * MS, end * MS) / MS, gap, delta=1, msg=(begin, end))
        self.assertEqual(moments.after(201 * MS), 900 * MS)
        self.assertIsNone(moments.after(6000 * MS))
        self.assertAlmostEqual(Moments().longest_gap(0, 10 * MS) / MS, 10, delta=1)


class Faults(unittest.TestCase):
    def test_those_of_one_text_that_meet_are_one(self) -> None:
        made = joined([Fault("a", 0, 5), Fault("b", 1, 2), Fault("a", 3, 9), Fault("a", 3 * MS, 4 * MS)])
        self.assertEqual(made, [Fault("a", 0, 9), Fault("b", 1, 2), Fault("a", 3 * MS, 4 * MS)])

    def test_rows_of_kinds(self) -> None:
        self.assertEqual(kind_of("n1 is cut off from n2"), "\u2026 is cut off from \u2026")
        strike = "n1 is down, by kill -9 [kill n1, process; while slow n2]"
        self.assertEqual((kind_of(strike), nodes_of(strike), plain(strike)), ("kill", ["n1"], "n1 is down, by kill -9"))
        laid = rows([Fault("n1 down", 0, 50), Fault("n2 down", 40, 60), Fault("clock", 10, 20), Fault("n3 down", 70, 80)], 100, 100)
        self.assertEqual([(row.name, [bar.who for bar in row.bars]) for row in laid],
                         [("\u2026 down", ["n1", "n3"]), ("", ["n2"]), ("clock", [""])])

    def test_shades_tell_how_many_hold(self) -> None:
        faults = [Fault("a", 0, 100), Fault("b", 50, 80), Fault("c", 60, 70), Fault("d", 62, 65)]
        self.assertEqual(list(depths(faults, 1)), [(0, 50, 1), (50, 60, 2), (60, 70, 3), (70, 80, 2), (80, 100, 1)])
        many = [Fault(str(number), number, 1000) for number in range(50)]  # of a nemesis that ends none
        spans = list(depths(many, 1))
        self.assertTrue(all(first[1] <= second[0] for first, second in itertools.pairwise(spans)) if hasattr(itertools, "pairwise") else True)
        self.assertEqual(len(spans), 3)

    def test_thousands_are_joined(self) -> None:
        many = [Fault("n1 down", 10 * number, 10 * number + 5) for number in range(20_000)]
        self.assertLess(sum(len(row.bars) for row in rows(many, 200_000, 900)), 2000)


class Scales(unittest.TestCase):
    def test_they_are_round(self) -> None:
        self.assertEqual([nice(value) for value in (0.3, 1, 3, 17, 60, 501)], [0.5, 1, 5, 20, 100, 1000])
        self.assertEqual(ticks(60)[:3] + ticks(60)[-1:], [0, 5, 10, 60])


class ThePage(unittest.TestCase):
    def page(self, lines: List[str], verdict: str = "legal", **other: object) -> str:
        gathered = Gathered()
        found = rates.read(lines, gathered)
        keys = [rates.KeyRow(str(key), "", "legal", counts) for key, counts in found.keys.items()]
        return rates.render(rates.RatesPage(verdict, gathered, found.faults, keys)._replace(**other))  # type: ignore[arg-type]

    def test_it_needs_nothing_else(self) -> None:
        text = self.page(SMALL)
        self.assertNotIn("<script", text)
        self.assertEqual(re.findall(r"(?:src|href)=\"(?!data:)[^\"]*\"|url\(|@import", text), [])
        for told in ("read: operations a second", "write: latency", "n1 is down, by kill -9: 2.00 to 4.00 s", "all is mended: 4.70 s",
                     "99.9 %", "longest without an ok", "2 keys, all legal"):
            self.assertIn(told, text)

    def test_text_is_text(self) -> None:
        text = self.page([note("note", "</text><script>x()</script> & more", 1.0), *SMALL], "no verdict: <b>&", command="a <b>",
                         sections=[rates.Section("<i>", "<u>\n&")], facts=[("a<", "b<")])
        self.assertEqual(re.findall("<(?:script|b|i|u)>", text), [])
        self.assertIn("&lt;script&gt;x()", text)

    def test_a_run_without_operations(self) -> None:
        self.assertIn("no verdict", self.page([], "no verdict: n1 has died by itself"))
        self.assertIn("legal", self.page(["; nothing"]))

    def test_its_size_does_not_go_with_the_operations(self) -> None:
        draws, gathered = random.Random(1), Gathered()
        for number in range(100_000):
            begin = number * 5 * MS
            gathered.add(draws.choice(("read", "write")), draws.choices(("ok", "fail", "info"), (90, 5, 5))[0], begin,
                         begin + round(10 ** draws.gauss(6.3, 0.5)))
        self.assertLess(len(rates.render(rates.RatesPage("legal", gathered))), 2_000_000)
