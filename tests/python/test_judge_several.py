"""Several files are one history: those of clients that did not know of each other. The right results are written by hand."""
from __future__ import annotations

import gzip
import json
import pathlib
import tempfile
import unittest
from typing import Any, Dict, List, Tuple

from jepmon.forms import Refused, files
from jepmon.forms.mapping import Mapping
from jepmon.forms.recorded import Options, Recorded, recorded

# Client a writes 1 and then 2; client b reads 1 in between.
A = [("invoke", "write", 1, 1), ("ok", "write", 1, 2), ("invoke", "write", 2, 5), ("ok", "write", 2, 6)]
B = [("invoke", "read", None, 3), ("ok", "read", 1, 4)]
WANT = ["invoke write", "ok write", "invoke read", "ok read", "invoke write", "ok write"]


def edn(client: str, events: List[Any], time: bool = True) -> str:
    return "".join(f"{{:process {client}, :type :{kind}, :f :{name}, :value {'nil' if value is None else value}" + (f", :time {at}" if time else "")
                   + "}\n" for kind, name, value, at in events)


def rows(client: Any, events: List[Any]) -> str:
    return "".join(json.dumps({"client": client, "type": kind, "op": name, "value": value, "time": at}) + "\n" for kind, name, value, at in events)


class Several(unittest.TestCase):
    def setUp(self) -> None:
        scratch = tempfile.TemporaryDirectory()
        self.addCleanup(scratch.cleanup)
        self.room = pathlib.Path(scratch.name)

    def made(self, given: Dict[str, Any], **mapping: Any) -> Recorded:
        for name, text in given.items():
            path = self.room / name
            path.parent.mkdir(parents=True, exist_ok=True)
            path.write_bytes(text if isinstance(text, bytes) else text.encode())
        words = [str(self.room / name.split("/")[0]) for name in given]
        return recorded(files.several(words), Options("0", mapping=Mapping(**mapping)))

    def events(self, given: Dict[str, Any], **mapping: Any) -> List[str]:
        self.found = self.made(given, **mapping)
        return [f"{line.split(' ')[1][1:-1]} {line.split(':f :')[1].split(',')[0]}" for line in self.found.text.split("\n") if line.startswith("{")]

    def test_by_their_times(self) -> None:
        operations = ("client,op,value,start,end\na,write,1,1,2\na,write,2,5,6\n", "client,op,value,start,end\nb,read,1,3,4\n")
        stamp = "2024-05-01 10:00:00,00{}{{GMT}}\tINFO\t[jepsen worker] jepsen.util: {}\t:{}\t:{}\t{}\n"
        clients: List[Tuple[int, List[Any]]] = [(0, A), (1, B)]
        logs = ["".join(stamp.format(at, client, kind, name, "nil" if value is None else value) for kind, name, value, at in events)
                for client, events in clients]
        couples: List[Tuple[str, str]] = [(edn("0", A), edn("1", B)), (edn(":a", A), edn(":b", B)), (f"[{edn('0', A)}]", f"[{edn('1', B)}]\n"),
                              (rows("a", A), rows("b", B)), (rows(0, A).rstrip(), rows(1, B)),
                              (json.dumps([json.loads(line) for line in rows(0, A).split("\n")[:-1]]), rows(1, B)), operations, (logs[0], logs[1])]
        for first, second in couples:
            pairs: List[Dict[str, Any]] = [{"a": first, "b": second}, {"b": second, "a": first}, {"a": gzip.compress(first.encode()), "b": second}]
            total = sum(text.count("\n") + (not text.endswith("\n")) for text in (first, second))
            for given in pairs:
                with self.subTest(given=given):
                    self.assertEqual(self.events(given), WANT)
                    self.assertEqual(len(self.found.facts.keys), 1)
                    self.assertEqual((self.found.account.lines, self.found.account.taken + sum(self.found.account.skipped.values())), (total, total))

    def test_lines_are_counted_through(self) -> None:
        self.events({"a": edn("0", A), "b": edn("1", B)})
        self.assertEqual(list(self.found.lines), [1, 2, 5, 6, 3, 4])
        self.events({"b": rows("b", B), "a": rows("a", A)})
        self.assertEqual(list(self.found.lines), [3, 4, 1, 2, 5, 6])
        source = files.several([str(self.room / "b"), str(self.room / "a")])
        self.assertEqual(source.notes, [f"lines are counted through: {self.room}/b has 1 to 2, {self.room}/a has 3 to 6"])

    def test_folders(self) -> None:
        self.assertEqual(self.events({"n1/history.edn": edn("0", A), "n2/history.edn": edn("1", B)}), WANT)

    def test_one_name_in_two_files(self) -> None:
        for first, second in ((edn("0", A), edn("0", B)), (rows("x", A), rows("x", B))):
            self.assertEqual(self.events({"a": first, "b": second}), WANT)
            self.assertIn("--clients apart", [guess.option for guess in self.found.account.guesses])
            self.events({"a": first, "b": second}, clients="apart")
            self.assertNotIn("--clients apart", [guess.option for guess in self.found.account.guesses])
            with self.assertRaisesRegex(Refused, "go(es)? back"):
                self.events({"a": first, "b": second}, clients="one")
        self.assertEqual(self.events({"b": edn("0", A[:2]), "a": edn("0", B)}, clients="one"), WANT[:4])

    def test_refusals(self) -> None:
        cases: List[Tuple[Dict[str, Any], Dict[str, Any], str]] = [
                ({"a": edn("0", A, time=False), "b": edn("1", B)}, {}, "this event has no :time, and there are several files: which came first?"),
                ({"a": rows("a", A).replace('"time"', '"index"'), "b": rows("b", B)}, {}, "has no time, and events are ordered by their times"),
                ({"a": edn("0", A), "b": rows("b", B)}, {}, "files of one history are of one form: .*a is Jepsen's form, .*b is JSON"),
                ({"a": edn("0", A), "b": edn("1", B)}, {"order": "lines"}, "several files have no order of lines"),
                ({"a": edn("0", A), "b": ""}, {}, "b: there is no event in it")]
        for given, mapping, reason in cases:
            with self.subTest(reason=reason), self.assertRaisesRegex(Refused, reason):
                self.events(given, **mapping)
        with self.assertRaisesRegex(Refused, "a: it is named twice"):
            files.several(["a", "a"])


if __name__ == "__main__":
    unittest.main()
