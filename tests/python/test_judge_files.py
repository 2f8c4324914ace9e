"""The places of a recorded history, and of the results."""
from __future__ import annotations

import bz2
import gzip
import os
import pathlib
import tempfile
import unittest
from typing import Dict, Union

from jepmon.forms import Refused, files
from jepmon.judge import outputs
from jepmon.tools.errors import OutputError

EVENT = "{:type :invoke, :process 0, :f :read, :value [7 nil]}\n"


class InAFolder(unittest.TestCase):
    """Tests with a folder of their own."""

    def setUp(self) -> None:
        held = tempfile.TemporaryDirectory()
        self.addCleanup(held.cleanup)
        self.top = pathlib.Path(held.name)

    def make(self, tree: Dict[str, Union[str, bytes]]) -> None:
        for name, content in tree.items():
            path = self.top / name
            path.parent.mkdir(parents=True, exist_ok=True)
            path.write_bytes(content if isinstance(content, bytes) else content.encode())

    def refused(self, name: str) -> str:
        with self.assertRaises(Refused) as refused:
            files.found(str(self.top / name)).text
        return str(refused.exception).replace(str(self.top) + "/", "").replace(str(self.top), ".")


class Found(InAFolder):
    def found(self, name: str) -> str:
        source = files.found(str(self.top / name))
        assert source.path is not None
        self.assertEqual(source.text, EVENT)
        return str(pathlib.Path(source.path).relative_to(self.top))

    def test_files(self) -> None:
        self.make({"a.edn": EVENT, "b.edn.gz": gzip.compress(EVENT.encode()), "c": b"\xef\xbb\xbf" + EVENT.encode(),
                   "two.gz": gzip.compress(EVENT[:9].encode()) + gzip.compress(EVENT[9:].encode())})
        for name in ("a.edn", "b.edn.gz", "c", "two.gz"):
            self.assertEqual(self.found(name), name)
        self.assertEqual(list(files.found(str(self.top / "c")).notes), ["a byte order mark at its front was left out"])

    def test_a_store(self) -> None:
        for time in ("20240501T100000.000Z", "20240502T100000.000Z"):
            self.make({f"store/etcd/{time}/{name}": text for name, text in
                       (("history.edn", EVENT), ("history.txt", "0\t:invoke"), ("results.edn", "{}"), ("jepsen.log", ""), ("test.jepsen", "JEPSEN"))})
        (self.top / "store" / "latest").symlink_to("etcd/20240502T100000.000Z")
        self.assertEqual(self.found("store"), "store/latest/history.edn")
        self.assertEqual(self.found("store/latest"), "store/latest/history.edn")
        self.assertEqual(self.found("store/etcd/20240501T100000.000Z"), "store/etcd/20240501T100000.000Z/history.edn")
        self.assertRegex(self.refused("store/etcd"), r"^store/etcd: there are 2 histories in this folder, name one: store/etcd/2024")

    def test_other_folders(self) -> None:
        self.make({"one/deep/run.jsonl": EVENT, "one/readme.md": "x", "json/history.jsonl.gz": gzip.compress(EVENT.encode()),
                   "two/a.edn": EVENT, "two/b.edn": EVENT, "none/readme.md": "x", "results/results.edn": "{}"})
        self.assertEqual(self.found("one"), "one/deep/run.jsonl")
        self.assertEqual(self.found("json"), "json/history.jsonl.gz")
        self.assertRegex(self.refused("two"), "there are 2 histories in this folder, name one: two/[ab].edn, two/[ab].edn$")
        for name in ("none", "results"):
            self.assertEqual(self.refused(name), f"{name}: there is no history in this folder: name a file, such as history.edn of a Jepsen store")

    def test_a_history_beside_what_is_none(self) -> None:
        self.make({"s/test.jepsen": b"JEPSEN\0", "s/history.edn": EVENT, "t/test.jepsen": b"JEPSEN\0"})
        self.assertRegex(self.refused("s/test.jepsen"), r"Jepsen's own binary file: .* \(it is there: s/history.edn\)$")
        self.assertNotIn("it is there", self.refused("t/test.jepsen"))

    def test_refusals(self) -> None:
        whole = gzip.compress(EVENT.encode() * 99)
        damaged = whole[:15] + bytes(byte ^ 255 for byte in whole[15:20]) + whole[20:]
        self.make({"cut.gz": whole[:-20], "damaged.gz": damaged, "bz2": bz2.compress(b"x"), "latin1": b"a\xe9b", "zeros": b"ab\0",
                   "utf16": EVENT.encode("utf-16"), "zip": b"PK\x03\x04"})
        for name, reason in (("missing", "No such file or directory"), ("cut.gz", "compressed by gzip, and cut off"),
                             ("damaged.gz", "compressed by gzip, and damaged"), ("bz2", "bzcat FILE"), ("latin1", "byte 1 is not UTF-8"),
                             ("zeros", "a byte of it is 0, the first at place 2"), ("utf16", "iconv -f UTF-16"), ("zip", "a zip archive")):
            with self.subTest(name=name):
                self.assertIn(reason, self.refused(name))


class Outputs(InAFolder):
    def refused_page(self, path: pathlib.Path) -> str:
        with self.assertRaises(Refused) as refused:
            outputs.Page(str(path))
        return str(refused.exception)

    def test_a_page(self) -> None:
        path = self.top / "page.html"
        page = outputs.Page(str(path))
        self.assertEqual(list(self.top.iterdir()), [])
        page.put("<html>1")
        outputs.Page(str(path)).put("<html>2")
        self.assertEqual((path.read_text(), [file.name for file in self.top.iterdir()]), ("<html>2", ["page.html"]))

    def test_pages_that_are_refused(self) -> None:
        self.make({"history.edn": EVENT, "folder/x": ""})
        self.assertIn("is not a page", self.refused_page(self.top / "history.edn"))
        self.assertIn("this is a folder", self.refused_page(self.top / "folder"))
        self.assertIn("No such file or directory", self.refused_page(self.top / "nowhere" / "page.html"))
        self.assertIn("Not a directory", self.refused_page(self.top / "history.edn" / "page.html"))
        if os.getuid() != 0:
            (self.top / "folder").chmod(0o500)
            self.assertIn("Permission denied", self.refused_page(self.top / "folder" / "page.html"))

    def test_a_full_disk(self) -> None:
        with self.assertRaisesRegex(OutputError, "No space left on device"):
            outputs.Page("/dev/full").put("x" * 10)

    def test_a_folder(self) -> None:
        path = self.top / "new" / "folder"
        outputs.Folder(str(path)).put({"history.edn": EVENT, "verdict.txt": "legal\n", "judge-again": "#!/bin/sh\n", "page.html": "<html>"})
        self.assertEqual(sorted(file.name for file in path.iterdir()), ["history.edn", "judge-again", "page.html", "verdict.txt"])
        self.assertTrue(os.access(path / "judge-again", os.X_OK) and not os.access(path / "history.edn", os.X_OK))
        outputs.Folder(str(path)).put({"history.edn": "", "verdict.txt": "legal\n", "judge-again": "", "page.html": None})
        self.assertEqual(sorted(file.name for file in path.iterdir()), ["history.edn", "judge-again", "verdict.txt"])

    def test_a_folder_that_nothing_comes_into(self) -> None:
        outputs.Folder(str(self.top / "new" / "folder")).give_up()
        self.assertEqual(list(self.top.iterdir()), [])

    def test_a_folder_of_something_else(self) -> None:
        self.make({"mine/history.edn": EVENT, "file": ""})
        with self.assertRaisesRegex(Refused, "this folder has other files"):
            outputs.Folder(str(self.top / "mine"))
        with self.assertRaisesRegex(Refused, "this folder can't be made"):
            outputs.Folder(str(self.top / "file" / "x"))
        self.assertEqual((self.top / "mine" / "history.edn").read_text(), EVENT)


if __name__ == "__main__":
    unittest.main()
