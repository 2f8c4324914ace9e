"""One front door: a history has one verdict, whether one check judges it or shards do, and of whatever form it is."""
from __future__ import annotations

import contextlib
import json
import os
import pathlib
import shutil
import subprocess
import sys
import tempfile
import unittest
from typing import Iterator, List, Tuple
from unittest import mock

from jepmon.forms import door, files
from jepmon.judge import tool
from jepmon.tools import command

from . import TOP

GIVEN = ("args", "stdout", "stderr", "status", "tool", "make.py")
# Histories that shards refuse by name.
APART = {"rewound": "commands of jepmon script", "several_kinds": "the same"}


def own(key: str, end: str) -> str:
    """A write of 1, and a read that this ends."""
    return "".join(f"{{:type :{kind}, :process {process}, :f :{name}, :value [{key} {part}]}}\n" for kind, process, name, part in (
        ("invoke", 0, "write", "1"), ("ok", 0, "write", "1"), ("invoke", 1, "read", "nil"), ("ok", 1, "read", end)))


@contextlib.contextmanager
def quiet(output: List[str]) -> Iterator[None]:
    with mock.patch.object(command, "write_error", lambda _: None), mock.patch.object(command, "write_output", output.extend), \
            mock.patch.object(command, "collect_seldom", lambda: None):
        yield


def judged(arguments: List[str]) -> Tuple[int, str]:
    """The status, and the verdict."""
    output: List[str] = []
    with quiet(output):
        status = tool.main(arguments + ["--no-cause"])
    return status, "".join(output).rstrip("\n").rpartition("\n")[2] if status != 3 else ""


class Ways(unittest.TestCase):
    def setUp(self) -> None:
        scratch = tempfile.TemporaryDirectory()
        self.addCleanup(scratch.cleanup)
        self.room = pathlib.Path(scratch.name)
        before = os.getcwd()
        self.addCleanup(os.chdir, before)
        os.chdir(self.room)

    def test_events_with_one_time(self) -> None:
        """A verdict that rests on the order in which they stand is refused."""
        rows = (("a", "invoke", "write", 1, 1), ("a", "ok", "write", 1, 5), ("b", "invoke", "write", 2, 5), ("b", "ok", "write", 2, 6),
                ("c", "invoke", "read", None, 7), ("c", "ok", "read", 1, 8))
        text = "".join(json.dumps(dict(zip(("client", "type", "f", "value", "time"), row), key="x")) + "\n" for row in rows)
        pathlib.Path("tied").write_text(text)
        pathlib.Path("apart").write_text(text.replace('"time": 5', '"time": 4', 1))
        self.assertEqual(self.agree(["tied"])[0], 3)
        self.assertEqual(self.agree(["apart"])[0], 1)
        self.assertEqual(self.agree(["tied", "--order", "times"])[0], 0)
        self.assertEqual(self.agree(["tied", "--order", "lines"])[0], 1)

    def test_lines_of_jepmons_own_form(self) -> None:
        """They are accounted for, whether they are read at once, in shards, or event by event."""
        texts = {"a line each": "; a run\n\n" + own("7", "1"), "two in one": own("7", "1").replace("}\n{:type :ok", "} {:type :ok", 1) + "\n",
                 "over lines": own("7", "1").replace(", :f", ",\n :f", 1)}
        wanted = {"a line each": (6, 4, {"blank or comment": 2}), "two in one": (4, 3, {"blank or comment": 1}), "over lines": (5, 5, {})}
        for name, text in texts.items():
            pathlib.Path("own.edn").write_text(text)
            for jobs in ([], ["--jobs", "1"]) if name == "a line each" else (["--jobs", "1"],):
                output: List[str] = []
                with self.subTest(name, jobs=jobs), quiet(output):
                    self.assertEqual(tool.main(["own.edn", "--json", "--no-cause", *jobs]), 0)
                    said = json.loads("".join(output))["lines"]
                    self.assertEqual((said["all"], said["of_events"], said["skipped"]), wanted[name])

    def test_the_folder_for_temporary_files(self) -> None:
        pathlib.Path("own.edn").write_text(own("7", "1"))
        os.mkdir("room")
        with mock.patch.object(files, "several", wraps=files.several) as several:
            several.side_effect = lambda names: self.assertEqual(tempfile.gettempdir(), "room") or mock.DEFAULT
            self.assertEqual(judged(["own.edn", "--temporary", "room"])[0], 0)
        self.assertNotEqual(tempfile.gettempdir(), "room")
        self.assertEqual(judged(["own.edn", "--temporary", "none"])[0], 3)

    def agree(self, arguments: List[str], *jobs: str) -> Tuple[int, str]:
        plain = judged(arguments)
        for number in jobs or ("1",):
            self.assertEqual(judged(arguments + ["--jobs", number]), plain, arguments)
        return plain

    def test_cases(self) -> None:
        seen = 0
        for case in sorted((TOP / "tests" / "judge").iterdir()):
            words = (case / "args").read_text().split("\n")[:-1] if (case / "args").exists() else []
            if case.name in APART or (case / "tool").exists() or not words or words[0] == "-" or "--jobs" in words or "--out" in words:
                continue
            room = self.room / case.name
            shutil.copytree(case, room, ignore=lambda _, names: [name for name in names if name in GIVEN])
            if (case / "make.py").exists():
                subprocess.run([sys.executable, str(case / "make.py")], cwd=room, check=True)
            os.chdir(room)
            with self.subTest(case=case.name):
                self.agree(words)
            seen += 1
        self.assertGreater(seen, 40)

    def test_keys_have_one_numbering(self) -> None:
        for key in ("7", "65535", "65536", "123456789", ":x", '"a b"', "[1 2]"):
            for end in ("1", "2"):
                with self.subTest(key=key, end=end):
                    (self.room / "h.edn").write_text(own(key, end))
                    number = "123456789" if key == "123456789" else "65536" if key == "65536" else key if key.isdigit() else "0"
                    want = (0, "legal") if end == "1" else (1, f"illegal key {number} index 3")
                    self.assertEqual(self.agree(["h.edn"]), want)

    def test_a_mark_and_gzip_and_tuples_as_maps(self) -> None:
        import gzip
        text = own("7", "2")
        for name, raw in (("a.edn", b"\xef\xbb\xbf" + text.encode()), ("b.edn.gz", gzip.compress(text.encode())),
                          ("c.edn.gz", gzip.compress(b"\xef\xbb\xbf" + text.encode())),
                          ("d.edn", text.replace("[7 ", "{:key 7, :value ").replace("]}", "}}").encode())):
            (self.room / name).write_bytes(raw)
            with self.subTest(name=name):
                self.assertEqual(self.agree([name]), (1, "illegal key 7 index 3"))

    def test_what_begins_as_jepmons_own_form_and_is_none(self) -> None:
        text = own("7", "1")
        for more, want in (("{:type :info, :process :nemesis, :f :kill, :value nil}\n", 0), ("{:type :invoke, :process 9, :f :read, :value [:a nil]}\n", 0),
                           ("{:type :ok, :process 1, :f :read, :value [7 1]}\n", 3), ("{:type :invoke, :process 0, :f :append, :value [7 1]}\n", 3),
                           ("{:type", 3), ("#{1}\n", 3)):
            (self.room / "h.edn").write_text(text + more)
            with self.subTest(more=more):
                self.assertEqual(self.agree(["h.edn"])[0], want)

    def test_times_that_go_back_in_jepmons_own_form(self) -> None:
        """Two clients hold a lock, and their files stand one behind the other."""
        lines = [f"{{:type :{kind}, :process {process}, :f :{name}, :value [0 nil], :time {time}}}\n" for process, name, kind, time in (
            (0, "acquire", "invoke", 1), (0, "acquire", "ok", 2), (0, "release", "invoke", 7), (0, "release", "ok", 8), (1, "acquire", "invoke", 3),
            (1, "acquire", "ok", 4))]
        (self.room / "h.edn").write_text("".join(lines))
        self.assertEqual(self.agree(["h.edn"]), (1, "illegal key 0 index 3"))
        self.assertEqual(self.agree(["h.edn", "--order", "lines"]), (0, "legal"))
        (self.room / "h.edn").write_text("".join(line.replace("{", f"{{:index {index}, ") for index, line in enumerate(lines)))
        self.assertEqual(self.agree(["h.edn"]), (0, "legal"))

    def test_commands(self) -> None:
        (self.room / "h.edn").write_text("[:model 7 :register]\n" + own("7", "1"))
        said: List[str] = []
        with quiet([]), mock.patch.object(command, "write_error", said.append):
            self.assertEqual((tool.main(["h.edn"]), tool.main(["h.edn", "--jobs", "1"])), (0, 3))
        self.assertIn("line 1: [:model 7 :register] is a command of jepmon script, and shards accept only events", said[-1])

    def test_what_is_long_goes_to_shards(self) -> None:
        """By itself, of whatever form; here what has more than 3 events is long."""
        row = '{{"client": 0, "op": "{}", "key": "k", "value": {}, "start": {}, "end": {}}}\n'
        texts = {"a.jsonl": row.format("write", 1, 1, 2) + row.format("read", 2, 3, 4),
                 "b.csv": "client,op,key,value,start,end\n0,write,k,1,1,2\n1,read,k,2,3,4\n",
                 "c.edn": own(":k", "2"), "d.txt": "".join(f"{p}\t:{kind}\t:{name}\t[:k {part}]\n" for kind, p, name, part in (
                     ("invoke", 0, "write", "1"), ("ok", 0, "write", "1"), ("invoke", 1, "read", "nil"), ("ok", 1, "read", "2")))}
        for name, text in texts.items():
            (self.room / name).write_text(text)
            want = judged([name])
            self.assertEqual(want[0], 1)
            with self.subTest(name=name), mock.patch.object(door, "MOST_WHOLE", 3):
                with mock.patch.object(tool, "_judge_whole", side_effect=AssertionError("by one check")):
                    self.assertEqual(judged([name]), want)

    def test_two_processes(self) -> None:
        (self.room / "h.edn").write_text("".join(
            f"{{:process 0, :type :{kind}, :f :{name}, :key :{key}, :value {part}}}\n" for key in "abc" for name, kind, part in (
                ("write", "invoke", "1"), ("write", "ok", "1"), ("read", "invoke", "nil"), ("read", "ok", "1"))))
        self.assertEqual(self.agree(["h.edn"], "1", "2"), (0, "legal"))


if __name__ == "__main__":
    unittest.main()
