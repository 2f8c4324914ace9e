"""Tables of psql, mysql and DuckDB, and Chrome's trace events: as rows, and what of them is refused."""
from __future__ import annotations

import json
import unittest
from typing import Any, Dict, List

from .translated import Case, events, made

PSQL = """ client |   op  | key | value | start | end
--------+-------+-----+-------+-------+-----
      0 | write | x   |     1 |     1 |   2
      1 | read  | x   |     1 |     3 |   4
(2 rows)

"""
MYSQL = """+--------+-------+-----+-------+-------+------+
| client | op    | key | value | start | end  |
+--------+-------+-----+-------+-------+------+
|      0 | write | x   |     1 |     1 |    2 |
|      1 | read  | x   |     1 |     3 |    4 |
+--------+-------+-----+-------+-------+------+
2 rows in set (0.00 sec)
"""
DUCKDB = """┌────────┬─────────┬─────────┬───────┬───────┬───────┐
│ client │   op    │   key   │ value │ start │  end  │
│ int64  │ varchar │ varchar │ int64 │ int64 │ int64 │
├────────┼─────────┼─────────┼───────┼───────┼───────┤
│      0 │ write   │ x       │     1 │     1 │     2 │
│      1 │ read    │ x       │     1 │     3 │     4 │
├────────┴─────────┴─────────┴───────┴───────┴───────┤
│ 2 rows                                   6 columns │
└────────────────────────────────────────────────────┘
"""
WANT = ["invoke 0 write [0 1]", "ok 0 write [0 1]", "invoke 1 read [0 nil]", "ok 1 read [0 1]"]


def trace(**fields: Any) -> Dict[str, Any]:
    """A complete event, a write of 1 to x by thread 0, with these fields too."""
    return {"name": "write", "ph": "X", "ts": 1.5, "dur": 1, "pid": 1, "tid": 0, "args": {"key": "x", "value": 1}, **fields}


class Tables(Case):
    def test_rows(self) -> None:
        for text, skipped in ((PSQL, {"the heading": 1, "rulers of the table": 1, "counts of its rows": 1, "blank": 1}),
                              (MYSQL, {"the heading": 1, "rulers of the table": 3, "counts of its rows": 1}),
                              (DUCKDB, {"the heading": 1, "types of its columns": 1, "rulers of the table": 4, "counts of its rows": 1})):
            self.assertEqual(events(text), WANT)
            account = made(text).account
            self.assertEqual((account.lines, account.taken, dict(account.skipped)), (text.count("\n"), 2, skipped))

    def test_empty_cells_hold_nothing(self) -> None:
        self.assertEqual(events(PSQL.replace("|     1 |     3", "|       |     3"))[-1], "ok 1 read [0 nil]")
        self.assertEqual(events(MYSQL.replace("|     1 |     3", "|  NULL |     3"))[-1], "ok 1 read [0 nil]")
        self.assertEqual(events(DUCKDB.replace("│     1 │     3", "│  NULL │     3"))[-1], "ok 1 read [0 nil]")

    def test_what_is_refused(self) -> None:
        self.refused(PSQL.replace("x   |     1 |     3", "x|y |     1 |     3"), "line 4: it has 7 cells for 6 columns: does a cell hold a bar?")
        self.refused(PSQL.replace("| x   |     1 |     3", "| x  +|     1 |     3"), "line 4: a cell of this table has several lines")
        self.refused(PSQL + PSQL, "line 7: more follows the table")
        self.refused(DUCKDB + "done\n", "line 10: more follows the table")
        left_out = "│   ·    │    ·    │    ·    │   ·   │   ·   │   ·   │\n"
        self.refused(DUCKDB.replace("│      1 │ read", left_out + "│      1 │ read"), "line 6: rows are left out of this table")
        self.refused(PSQL.replace("| key |", "| op  |"), "two columns are called 'op'")
        self.refused(PSQL[:-len("(2 rows)\n\n") - 1], "line 4: the last line has no line feed")


class Traces(Case):
    def text(self, *found: Dict[str, Any]) -> str:
        return json.dumps({"traceEvents": list(found), "displayTimeUnit": "ms"})

    def test_rows(self) -> None:
        text = self.text({"name": "thread_name", "ph": "M", "pid": 1, "args": {"name": "kv"}}, trace(),
                         trace(name="read", ts=3.25, tid=1, args={"key": "x", "value": 1}))
        self.assertEqual(events(text), WANT)
        self.assertIn("traceEvents of ph M (1)", made(text).account.fields)

    def test_times_are_microseconds(self) -> None:
        text = self.text(trace(), trace(name="read", ts=2.5, tid=1))  # which touch
        self.assertEqual([line[:6] for line in events(text)], ["invoke", "invoke", "ok 0 w", "ok 1 r"])

    def test_threads_of_two_processes_are_two_clients(self) -> None:
        text = self.text(trace(), trace(pid=2, ts=5))
        self.assertEqual([line.split()[1] for line in events(text)], ["0", "0", "1", "1"])

    def test_what_is_refused(self) -> None:
        cases: List[Dict[str, Any]] = [trace(ph="B"), trace(args=[1]), trace(args={"op": "read"}), trace(name="GC")]
        for event, reason in zip(cases, ("traceEvents of ph B have their begin and their end apart", "the args of a traceEvent are not an object",
                                         "have 'op', and the event itself has it too", "GC")):
            self.refused(self.text(trace(), event), reason)


if __name__ == "__main__":
    unittest.main()
