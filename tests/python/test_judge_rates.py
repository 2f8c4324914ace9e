"""The page of rates of a recorded history: beside the page of the bad key, or by itself."""
from __future__ import annotations

import contextlib
import io
import os
import re
from typing import List, Tuple
from unittest import mock

from jepmon import judge
from tests.python.monitored import Monitored

OWN = """\
{:type :invoke, :process 0, :f :write, :value [7 1], :time 5000000000}
{:type :ok, :process 0, :f :write, :value [7 1], :time 5010000000}
#_{:type :info, :process :nemesis, :f :begin-fault, :value "n1 is down", :time 5500000000}
{:type :invoke, :process 1, :f :read, :value [7 nil], :time 6000000000}
{:type :ok, :process 1, :f :read, :value [7 ANSWER], :time 7000000000}
"""
ROWS = "client,op,key,arg,ret,call_ms,return_ms\n0,write,7,1,,1000,1200\n1,read,7,,1,2100,4000\n"
JEPSEN = """\
{:type :invoke, :f :write, :value [0 1], :process 0, :time 1000000000, :index 0}
{:type :ok, :f :write, :value [0 1], :process 0, :time 1500000000, :index 1}
{:type :info, :f :start-partition, :value :majority, :process :nemesis, :time 1600000000, :index 2}
{:type :invoke, :f :read, :value [0 nil], :process 1, :time 2000000000, :index 3}
{:type :ok, :f :read, :value [0 1], :process 1, :time 3000000000, :index 4}
"""


def parts_of(page: str) -> List[str]:
    """The page without what says how the history was judged."""
    return [part for part in re.split("(?=<)", page) if "jepmon" not in part]


class Pages(Monitored):
    def judged(self, name: str, text: str, *words: str) -> Tuple[int, List[str]]:
        (self.room / name).write_text(text)
        out, error = io.StringIO(), io.StringIO()
        with mock.patch.dict(os.environ, JEPMON=self.program), contextlib.redirect_stdout(out), contextlib.redirect_stderr(error):
            status = judge.main([str(self.room / name), "--min-ok", "0", *words])
        return status, error.getvalue().splitlines()

    def html(self) -> str:
        return str(self.room / "page.html")

    def rates(self) -> str:
        return (self.room / "page-rates.html").read_text("utf-8")

    def test_beside_the_bad_key(self) -> None:
        status, said = self.judged("own.edn", OWN.replace("ANSWER", "4"), "--html", self.html(), "--out", str(self.room / "out"))
        self.assertEqual(status, 1)
        self.assertIn(f"judge: the page of rates is {self.room}/page-rates.html", said)
        text = self.rates()
        self.assertIn('<a href="page.html">', text)
        self.assertIn("n1 is down: 0.50 to 2.00 s", text)  # from the first event on, to the last
        self.assertIn("illegal at event 3", text)
        self.assertRegex(text, r"<td>read</td><td class=\"number\">1</td>")
        self.assertEqual((self.room / "out" / "rates.html").read_text("utf-8"), text)
        status, _ = self.judged("own.edn", OWN.replace("ANSWER", "4"), "--html", self.html(), "--jobs", "1")
        self.assertEqual((status, parts_of(self.rates())), (1, parts_of(text)))

    def test_of_legal_histories(self) -> None:
        for name, text, latency in (("own.edn", OWN.replace("ANSWER", "1"), "1,000 ms"), ("rows.csv", ROWS, "1,900 ms"),
                                    ("jepsen.edn", JEPSEN, "1,000 ms")):
            with self.subTest(name):
                self.assertEqual(self.judged(name, text, "--html", self.html(), "--jobs", "1")[0], 0)
                in_shards = self.rates().replace("--jobs 1 ", "")
                self.assertEqual(self.judged(name, text, "--html", self.html())[0], 0)
                self.assertEqual(parts_of(self.rates()), parts_of(in_shards))
                self.assertIn(f'<td>read</td><td class="number">1</td><td class="number">0</td><td class="number">0</td><td class="number">0</td>'
                              f'<td class="number">{latency}</td>', self.rates())
                self.assertFalse((self.room / "page.html").exists())
        self.assertIn("start-partition", self.rates())

    def test_times_that_are_too_short(self) -> None:
        self.assertEqual(self.judged("rows.csv", ROWS.replace("_ms", ""), "--html", self.html())[0], 0)
        self.assertIn("--time-unit", self.rates())

    def test_without_times_there_is_none(self) -> None:
        text = "".join(line.partition(", :time")[0] + "}\n" for line in OWN.replace("ANSWER", "1").splitlines() if line.startswith("{"))
        self.judged("own.edn", OWN.replace("ANSWER", "1"), "--out", str(self.room / "out"))
        self.assertTrue((self.room / "out" / "rates.html").exists())
        status, said = self.judged("own.edn", text, "--html", self.html(), "--out", str(self.room / "out"))
        self.assertEqual(status, 0)
        self.assertFalse((self.room / "page-rates.html").exists() or (self.room / "out" / "rates.html").exists())
        self.assertNotIn("rates", "".join(said))

    def test_another_file_is_left_alone(self) -> None:
        (self.room / "page-rates.html").write_text("notes of the user")
        status, said = self.judged("own.edn", OWN.replace("ANSWER", "1"), "--html", self.html())
        self.assertEqual(status, 0)
        self.assertIn(f"judge: the page of rates was not written: {self.room}/page-rates.html: this file is there, and is not a page: it is not "
                      "overwritten", said)
        self.assertEqual(self.rates(), "notes of the user")
