"""Shards in a folder: written, judged one by one, and joined; missing, old and refused ones."""
from __future__ import annotations

import io
import os
import pathlib
import tempfile
import unittest
from typing import Tuple

from jepmon import program, shards
from jepmon.program import Options, find_program
from jepmon.shards.checking import opened
from jepmon.shards.folder import read_manifest
from jepmon.shards.sizes import Sizes
from jepmon.shards.splitting import finish, join, judge, new_folder, split

from .fuzz import has_program
from .shard_histories import case_of
from .test_shards_check import line, written

SMALL = Sizes(block=100, piece=300, shard=100, keys=1)


@unittest.skipUnless(has_program(), "there is no program")
class Folders(unittest.TestCase):
    def setUp(self) -> None:
        scratch = tempfile.TemporaryDirectory()
        self.addCleanup(scratch.cleanup)
        self.top = pathlib.Path(scratch.name)
        self.folder = self.top / "shards"
        self.history = self.top / "history.edn"

    def split(self, text: bytes, options: Options = Options(), sizes: Sizes = SMALL) -> None:
        self.history.write_bytes(text)
        with new_folder(str(self.folder)), opened(str(self.history), options, 1, sizes=sizes) as session:
            finish(session, options, str(self.folder), split(session, options, str(self.folder)))

    def judge(self) -> int:
        """How many shards were judged."""
        return sum(judge(str(path), find_program()) for path in sorted(self.folder.glob("*.edn")))

    def join(self) -> Tuple[str, int]:
        out = io.BytesIO()
        with tempfile.TemporaryDirectory() as scratch:
            try:
                return self._text(out, join(str(self.folder), scratch, out).status)
            except shards.Refused as refused:
                return f"{refused}\n", 3

    def _text(self, out: io.BytesIO, status: int) -> Tuple[str, int]:
        return out.getvalue().decode(), status

    def test_random_histories(self) -> None:
        for seed in range(40):
            case = case_of(seed)
            told = program.check(case.text, case.options)
            folder = self.folder = self.top / f"shards-{seed}"
            try:
                self.split(case.text, case.options, case.sizes)
            except shards.Refused as refused:
                self.assertEqual((f"{refused}\n", 3), (told.text, told.status))
                self.assertFalse(folder.exists())
                continue
            self.judge()
            self.assertEqual(self.join(), (told.text, told.status), f"seed {seed}")

    def test_a_folder_that_is_not_judged(self) -> None:
        self.split("".join(written(key, 3) for key in range(5)).encode())
        names = [path.name for path in self.folder.glob("*.edn")]
        self.assertGreater(len(names), 2)
        with self.assertRaisesRegex(shards.ShardsError, f"of {len(names)} shards {len(names)} are not judged"):
            self.join()
        self.assertEqual(self.judge(), len(names))
        self.assertEqual(self.judge(), 0)
        self.assertEqual(self.join()[1], 0)
        gone = next(self.folder.glob("*.out"))
        gone.unlink()
        with self.assertRaisesRegex(shards.ShardsError, f"1 are not judged: {gone.stem}"):
            self.join()
        self.assertEqual(self.judge(), 1)
        self.assertTrue(self.join()[0].endswith("\nlegal\n"))

    def test_reports_of_another_shard_and_cut_ones(self) -> None:
        self.split(written(0, 3).encode())
        self.judge()
        out = next(self.folder.glob("*.out"))
        text = out.read_text()
        for other in (text.replace("shard ", "shard 0", 1), text[:-1], "", text.splitlines()[0]):
            out.write_text(other)
            with self.assertRaises(shards.ShardsError):
                self.join()
        for other in (text.replace("key 0", "key 1"), text.replace("events 6", "events 5"), text.replace("legal\n", "")):
            out.write_text(other)
            with self.assertRaisesRegex(shards.ShardsError, "differ"):
                self.join()

    def test_an_event_that_only_the_program_refuses(self) -> None:
        text = written(0, 3) + line("invoke", 0, "write", 1, "1") + line("ok", 0, "write", 1, "2")
        self.split(text.encode())
        self.judge()
        self.assertEqual(self.join(), ("refused 4 Mismatch event 7\n", 3))
        self.history.unlink()
        with self.assertRaisesRegex(shards.ShardsError, "was removed or has changed"):
            self.join()

    def test_a_split_that_is_cut_off(self) -> None:
        self.folder.mkdir()
        (self.folder / "splitting").touch()
        (self.folder / "shard-9-0.edn").write_text("old")
        with self.assertRaisesRegex(shards.ShardsError, "jepmon-shards split was cut off"):
            self.join()
        self.split(written(0, 3).encode())
        self.assertFalse((self.folder / "shard-9-0.edn").exists())
        self.judge()
        self.assertEqual(self.join()[1], 0)

    def test_folders_that_have_something(self) -> None:
        self.split(written(0, 3).encode())
        with self.assertRaisesRegex(shards.ShardsError, "has shards already"):
            self.split(b"")
        other = self.folder = self.top / "other"
        other.mkdir()
        (other / "precious").touch()
        with self.assertRaisesRegex(shards.ShardsError, "has other files"):
            self.split(b"")
        self.assertEqual(os.listdir(other), ["precious"])

    def test_what_is_no_shard(self) -> None:
        for text in ("", "; a comment\n", written(0, 1)):
            path = self.top / "x.edn"
            path.write_text(text)
            with self.assertRaisesRegex(shards.ShardsError, "this is not a shard"):
                judge(str(path), find_program())
        with self.assertRaisesRegex(shards.ShardsError, "No such file"):
            judge(str(self.top / "nothing.edn"), find_program())

    def test_no_event(self) -> None:
        self.split(b"")
        self.assertEqual(read_manifest(str(self.folder)).shards, [])
        self.assertEqual(self.join(), ("legal\n", 0))


if __name__ == "__main__":
    unittest.main()
