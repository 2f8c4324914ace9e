"""The further results of jepmon-judge: every bad key with its cause, their pages, and all of it as one JSON object."""
from __future__ import annotations

import contextlib
import io
import json
import os
import pathlib
import re
import tempfile
import unittest
import unittest.mock
from typing import Any, Dict, List, NamedTuple

from jepmon import judge
from jepmon.program import ProgramError, find_program
from jepmon.judge import bad_keys

from . import TOP

Row = Dict[str, Any]


class Ran(NamedTuple):
    status: int
    out: str
    err: str


class Judged(unittest.TestCase):
    """A history of a test in a folder, judged in this process."""

    def setUp(self) -> None:
        try:
            find_program()
        except ProgramError as fault:
            self.skipTest(str(fault))
        held = tempfile.TemporaryDirectory()
        self.addCleanup(held.cleanup)
        self.top = pathlib.Path(held.name)
        self.addCleanup(os.chdir, os.getcwd())
        os.chdir(held.name)

    def judged(self, text: str, *words: str, name: str = "history.jsonl") -> Ran:
        (self.top / name).write_text(text)
        out, err = io.StringIO(), io.StringIO()
        with contextlib.redirect_stdout(out), contextlib.redirect_stderr(err):
            status = judge.main([name, *words])
        return Ran(status, out.getvalue(), err.getvalue())

    def as_json(self, text: str, *words: str, name: str = "history.jsonl") -> Any:
        ran = self.judged(text, "--json", *words, name=name)
        found = json.loads(ran.out)
        self.assertEqual((found["version"], found["status"]), (1, ran.status))
        return found


def rows(keys: Dict[str, bool]) -> str:
    """For each key two writes and a read, one after the other: of the first value, which is stale, or of the second."""
    lines, time = [], 0
    for key, is_legal in keys.items():
        for row in ({"op": "write", "value": 1}, {"op": "write", "value": 2}, {"op": "read", "result": 2 if is_legal else 1}):
            lines.append(json.dumps({"client": 0, "key": key, **row, "start": time, "end": time + 1}))
            time += 2
    return "\n".join(lines) + "\n"


def own(keys: Dict[int, bool]) -> str:
    """The same in jepmon's own form."""
    lines: List[str] = []
    for key, is_legal in keys.items():
        for name, asked, answer in (("write", "1", "1"), ("write", "2", "2"), ("read", "nil", "2" if is_legal else "1")):
            lines += [f"{{:type :{kind}, :process 0, :f :{name}, :value [{key} {part}]}}" for kind, part in (("invoke", asked), ("ok", answer))]
    return "\n".join(lines) + "\n"


MIXED = {"a": True, "b": False, "c": True, "d": False, "e e": False}


class EveryKey(Judged):
    def test_each_is_named_with_its_cause_and_line(self) -> None:
        ran = self.judged(rows(MIXED))
        self.assertEqual((ran.status, ran.out.splitlines()[-1]), (1, "illegal key 1 index 11"))
        self.assertIn('Client 0 read 1 from key "b", which could not hold 1 any more.', ran.err)
        self.assertIn('''\
other keys: 2 not linearizable
  key "d", event 23, line 12: Client 0 read 1 from key "d", which could not hold 1 any more.
  key "e e", event 29, line 15: Client 0 read 1 from key "e e", which could not hold 1 any more.
''', ran.err)

    def test_the_same_in_shards(self) -> None:
        ran = self.judged(own({10: False, 11: True, 12: False}), "--jobs", "1", name="history.edn")
        self.assertIn("other keys: 1 not linearizable\n  key 12, event 17, line 18: Client 0 read 1 from key 12, which could not", ran.err)

    def test_keys_that_are_not_judged_to_their_end(self) -> None:
        text = own({1: False}) + "".join(f"{{:type :invoke, :process {client}, :f :write, :value [2 {client}]}}\n" for client in range(1, 6)) \
            + "{:type :ok, :process 1, :f :write, :value [2 1]}\n"
        ran = self.judged(text, "--budget", "3", "--by-ends", "--decide-seconds", "0", name="history.edn")
        self.assertIn("other keys: 1 not judged to the end\n  key 2, event 11, line 12: At event 11 more than 3 outcomes were possible", ran.err)

    def test_of_many_the_first_are_shown(self) -> None:
        ran = self.judged(rows({f"k{number}": False for number in range(30)}))
        self.assertEqual(len(re.findall("^  key ", ran.err, re.M)), bad_keys.SHOWN)
        self.assertIn("  and 9 more, which --json and --out name\n", ran.err)

    def test_the_work_for_the_others_is_bounded(self) -> None:
        """Each is named all the same."""
        keys = {f"k{number}": False for number in range(5)}
        with unittest.mock.patch.object(bad_keys, "OTHERS", 1.0):
            found = self.as_json(rows(keys))
        self.assertEqual([key["name"] for key in found["bad_keys"]], list(keys))
        self.assertEqual([key["cause"] is None for key in found["bad_keys"]], [False, True, True, True, True])


class Pages(Judged):
    def test_each_has_one_and_the_first_leads_to_them(self) -> None:
        for words, first, folder in ((["--html", "page.html"], "page.html", "page-keys"), (["--out", "kept"], "kept/page.html", "kept/keys")):
            self.judged(rows(MIXED), *words)
            text = (self.top / first).read_text()
            links = re.findall('<a href="([^"]+)">([^<]+)</a>', text)
            self.assertEqual([name for _, name in links], ["&quot;d&quot;", "&quot;e e&quot;"])
            for link, _ in links:
                other = ((self.top / first).parent / link).read_text()
                self.assertIn('href="../page.html"', other)
                self.assertNotIn("Other keys that are not legal", other)
            self.assertEqual(sorted(path.name for path in (self.top / folder).iterdir()), ["key-3.html", "key-4.html"])

    def test_no_page_of_an_earlier_run_stays(self) -> None:
        self.judged(rows(MIXED), "--html", "page.html")
        self.judged(rows({"a": True, "b": False, "c": False}), "--html", "page.html")
        self.assertEqual([path.name for path in (self.top / "page-keys").iterdir()], ["key-2.html"])
        ran = self.judged(rows({"a": True}), "--html", "page.html")
        self.assertIn("no page was written, and that of an earlier run was removed", ran.err)
        self.assertEqual(sorted(path.name for path in self.top.iterdir()), ["history.jsonl", "page-rates.html"])
        self.assertNotIn("earlier run", self.judged(rows({"a": True}), "--html", "page.html").err)

    def test_what_is_no_page_of_a_key_stays(self) -> None:
        (self.top / "page-keys").mkdir()
        (self.top / "page-keys" / "mine.html").write_text("<p>mine")
        self.judged(rows(MIXED), "--html", "page.html")
        self.judged(rows({"a": True}), "--html", "page.html")
        self.assertEqual([path.name for path in (self.top / "page-keys").iterdir()], ["mine.html"])


class Least(Judged):
    """A verdict rests on answers."""

    def of(self, *events: str) -> str:
        """Each `NAME ANSWER KIND` as an operation of key 7."""
        lines = []
        for event in events:
            name, asked, answer, kind = event.split()
            lines += [f"{{:type :invoke, :process 0, :f :{name}, :value [7 {asked}]}}", f"{{:type :{kind}, :process 0, :f :{name}, :value [7 {answer}]}}"]
        return "\n".join(lines) + "\n"

    def test_what_says_nothing_has_no_verdict(self) -> None:
        for events in (("write 1 1 ok",), ("write 1 1 fail", "read nil nil fail"), ("write 1 1 ok", "read nil nil ok"), ("enqueue 1 1 ok",),
                       ("acquire nil nil fail",), ("add 1 1 ok",)):
            settled = ["--nil-is-unknown"] if "read nil nil ok" in events else []
            for words in ([], ["--jobs", "1"]):
                ran = self.judged(self.of(*events), *words, *settled, name="history.edn")
                self.assertEqual((ran.status, ran.out), (3, ""), events)
                self.assertEqual(ran.err.splitlines()[-1], "judge: history.edn: no operation was ok whose answer says anything of the store, "
                                 "so there is no verdict; --min-ok 0 gives one all the same")
        self.assertEqual(self.judged(self.of("write 1 1 ok"), "--min-ok", "0", name="history.edn").status, 0)
        self.assertEqual(self.as_json(self.of("write 1 1 ok"), name="history.edn")["verdict"], "refused")

    def test_an_answer_is_enough(self) -> None:
        for events in (("write 1 1 ok", "read nil 1 ok"), ("enqueue 1 1 ok", "dequeue nil 1 ok"), ("acquire nil nil ok",), ("read nil #{} ok",)):
            self.assertEqual(self.judged(self.of(*events), name="history.edn").status, 0, events)

    def test_more_may_be_asked_for(self) -> None:
        ran = self.judged(self.of("write 1 1 ok", "read nil 1 ok"), "--min-ok", "2", name="history.edn")
        self.assertEqual(ran.status, 3)
        self.assertIn("1 operation was ok whose answer says anything of the store, so there is no verdict; --min-ok 1 gives one", ran.err)

    def test_what_is_illegal_stays_so(self) -> None:
        self.assertEqual(self.judged(self.of("write 1 1 ok", "read nil 2 ok"), "--min-ok", "5", name="history.edn").status, 1)


class AsJson(Judged):
    def test_an_illegal_history(self) -> None:
        found = self.as_json(rows(MIXED), "--html", "page.html")
        self.assertEqual({name: found[name] for name in ("verdict", "line", "keys", "models", "budget", "page", "folder", "operations", "history")}, {
            "verdict": "illegal", "line": "illegal key 1 index 11", "keys": {"legal": 2, "illegal": 3, "unknown": 0}, "models": {"register": 5},
            "budget": 4096, "page": "page.html", "folder": None,
            "operations": {"read": {"ok": 5, "fail": 0, "info": 0}, "write": {"ok": 10, "fail": 0, "info": 0}},
            "history": {"name": "history.jsonl", "file": "history.jsonl", "files": ["history.jsonl"], "form": "JSON", "events": 30, "keys": 5, "clients": 1,
                        "concurrency": 1}})
        self.assertEqual(found["guesses"][0], {"of": "the model", "assumed": "register, by its operations: read, write", "option": "--model NAME"})
        first = found["bad_keys"][0]
        self.assertEqual({name: first[name] for name in ("key", "name", "verdict", "status", "model", "budget", "events", "event", "is_proved")}, {
            "key": 1, "name": "b", "verdict": "illegal", "status": "dead", "model": "register", "budget": 4096, "events": 6,
            "event": {"index": 11, "file": "history.jsonl", "line": 6}, "is_proved": True})
        self.assertEqual(first["cause"]["headline"], 'Client 0 read 1 from key "b", which could not hold 1 any more.')
        operations = first["smallest_part"]["operations"]
        self.assertEqual([(each["name"], each["value"], each["answer"], each["outcome"], each["invoked"]["line"]) for each in operations],
                         [("write", 1, None, "ok", 4), ("write", 2, None, "ok", 5), ("read", None, 1, "ok", 6)])
        self.assertEqual((first["smallest_part"]["of"], first["smallest_part"]["is_smallest"]), (3, True))
        self.assertEqual([key["name"] for key in found["bad_keys"]], ["b", "d", "e e"])

    def test_the_same_in_shards(self) -> None:
        keys = {10: False, 11: True, 12: False}
        whole, shards = (self.as_json(own(keys), *words, name="history.edn") for words in ([], ["--jobs", "1"]))
        self.assertEqual(shards["bad_keys"], whole["bad_keys"])
        self.assertEqual([shards[name] for name in ("verdict", "line", "keys", "models", "operations")],
                         [whole[name] for name in ("verdict", "line", "keys", "models", "operations")])
        self.assertEqual(whole["bad_keys"][1]["event"], {"index": 17, "file": "history.edn", "line": 18})
        self.assertEqual(whole["bad_keys"][1]["name"], 12)

    def test_lines_of_several_files(self) -> None:
        lines = rows({"a": True, "b": False}).splitlines(True)
        (self.top / "second.jsonl").write_text("".join(lines[4:]))
        found = self.as_json("".join(lines[:4]), "second.jsonl", name="first.jsonl")
        self.assertEqual(found.get("history", found)["files"], ["first.jsonl", "second.jsonl"])
        part = found["bad_keys"][0]["smallest_part"]["operations"]
        self.assertEqual([(each["invoked"]["file"], each["invoked"]["line"]) for each in part],
                         [("first.jsonl", 4), ("second.jsonl", 1), ("second.jsonl", 2)])

    def test_legal_and_unknown(self) -> None:
        found = self.as_json(rows({"a": True}))
        self.assertEqual((found["verdict"], found["status"], found["bad_keys"]), ("legal", 0, []))
        text = "".join(f"{{:type :invoke, :process {client}, :f :write, :value [2 {client}]}}\n" for client in range(5)) \
            + "{:type :ok, :process 1, :f :write, :value [2 1]}\n"
        found = self.as_json(text, "--budget", "3", "--by-ends", "--decide-seconds", "0", name="history.edn")
        self.assertEqual((found["verdict"], found["status"], found["keys"]["unknown"]), ("unknown", 2, 1))
        self.assertEqual((found["bad_keys"][0]["verdict"], found["bad_keys"][0]["status"], found["bad_keys"][0]["budget"]), ("unknown", "over", 3))

    def test_refusals(self) -> None:
        """Whoever refuses, and wherever."""
        for words, said in (([], "there is no event in it"), (["--model", "no"], "invalid choice"), (["--html", "/nowhere/x.html"], "can't be written"),
                            (["--strict-input"], "there is no event")):
            found = self.as_json("", *words)
            self.assertEqual((found["verdict"], found["status"]), ("refused", 3))
            self.assertIn(said, found["reason"])
        stale = (TOP / "examples" / "stale-read.edn").read_text()
        found = self.as_json(stale, "--concurrency", "1", name="history.edn")
        self.assertEqual((found["verdict"], found["line"][:7]), ("refused", "refused"))
        found = self.as_json(stale, "--concurrency", "1", "--jobs", "1", name="history.edn")
        self.assertEqual((found["verdict"], found["status"]), ("refused", 3))

    def test_nothing_else_is_printed(self) -> None:
        self.assertEqual(self.judged(rows(MIXED), "--json").out.count("\n}\n"), 1)


if __name__ == "__main__":
    unittest.main()
