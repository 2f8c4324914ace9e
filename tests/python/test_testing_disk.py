"""A disk that can lose power: synced data stays, and unsynced data is lost or torn. Skipped where nothing can be mounted by FUSE."""
from __future__ import annotations

import filecmp
import os
import pathlib
import random
import shutil
import signal
import subprocess
import sys
import tempfile
import unittest
from typing import Callable
from unittest import mock

from jepmon.testing import mounts
from jepmon.testing.disks import Disk
from jepmon.testing.errors import ServerError
from jepmon.testing.guard import environment
from jepmon.testing.needs import planned
from jepmon.testing.run import Given
from jepmon.testing.template import MyServer
from jepmon.testing.unsynced import BLOCK, SECTOR, Unsynced
from tests.python.monitored import Monitored
from tests.python.test_testing_nodes import wait_for

TEST = """
import pathlib, sys, time
from jepmon.testing.disks import Disk
from jepmon.testing.guard import Guard
folder = pathlib.Path(sys.argv[1])
guard, point = Guard(folder), folder / "n1"
point.mkdir()
disk = Disk(point, folder / "n1.disk")
print(disk._process.pid, flush=True)
time.sleep(600)
"""


class Rooms(unittest.TestCase):
    def setUp(self) -> None:
        room = tempfile.TemporaryDirectory()
        self.addCleanup(room.cleanup)
        self.room = pathlib.Path(room.name)


class UnsyncedContents(Rooms):
    """On a file of its own, without a mount."""

    def setUp(self) -> None:
        super().setUp()
        self.file = os.open(self.room / "file", os.O_RDWR | os.O_CREAT)
        self.addCleanup(os.close, self.file)

    def write(self, unsynced: Unsynced, at: int, data: bytes) -> None:
        unsynced.before(at, len(data))
        os.pwrite(self.file, data, at)

    def cut_off(self, unsynced: Unsynced, length: int) -> None:
        unsynced.before_length(length)
        os.ftruncate(self.file, length)

    def contents(self) -> bytes:
        return (self.room / "file").read_bytes()

    def test_all_is_as_it_was(self) -> None:
        """After 300 changes that are drawn, of each of some lengths that the file had."""
        draws = random.Random(1)
        for length in (0, 1, SECTOR, BLOCK - 1, BLOCK, BLOCK + 1, 3 * BLOCK + 77):
            had = bytes(draws.randrange(256) for _ in range(length))
            os.ftruncate(self.file, 0)
            os.pwrite(self.file, had, 0)
            unsynced = Unsynced(self.file)
            for _ in range(300):
                if draws.random() < 0.1:
                    self.cut_off(unsynced, draws.randrange(5 * BLOCK))
                else:
                    self.write(unsynced, draws.randrange(4 * BLOCK), bytes([draws.randrange(256)]) * draws.randrange(1, 2 * BLOCK))
            unsynced.lose()
            self.assertEqual(self.contents(), had)

    def test_of_what_is_torn_each_sector_is_old_or_new(self) -> None:
        old, new = b"o" * 8 * SECTOR, b"n" * 8 * SECTOR
        seen = set()
        for seed in range(40):
            os.ftruncate(self.file, 0)
            os.pwrite(self.file, old, 0)
            unsynced = Unsynced(self.file)
            self.write(unsynced, 0, new)
            unsynced.tear(random.Random(seed))
            sectors = [self.contents()[at:at + SECTOR] for at in range(0, len(old), SECTOR)]
            self.assertEqual(len(self.contents()), len(old))
            self.assertLessEqual(set(sectors), {b"o" * SECTOR, b"n" * SECTOR})
            seen.add(b"".join(sectors))
        self.assertGreater(len(seen), 20)

    def test_a_file_that_is_torn_ends_with_its_last_sector_that_was_kept(self) -> None:
        lengths = set()
        for seed in range(40):
            os.ftruncate(self.file, 0)
            os.pwrite(self.file, b"o" * 100, 0)
            unsynced = Unsynced(self.file)
            self.write(unsynced, 100, b"n" * 1000)
            unsynced.tear(random.Random(seed))
            found = self.contents()
            lengths.add(len(found))
            self.assertEqual(found[:100], b"o" * 100)
            for at in range(0, len(found), SECTOR):
                self.assertIn(set(found[max(at, 100):at + SECTOR]), ({0}, {ord("n")}, set()))
        self.assertEqual(lengths, {100, SECTOR, 2 * SECTOR, 1100})

    def test_what_was_not_written_is_not_torn(self) -> None:
        os.pwrite(self.file, b"o" * 3 * BLOCK, 0)
        unsynced = Unsynced(self.file)
        self.write(unsynced, BLOCK, b"n" * BLOCK)
        unsynced.tear(random.Random(1))
        self.assertEqual((self.contents()[:BLOCK], self.contents()[2 * BLOCK:]), (b"o" * BLOCK, b"o" * BLOCK))
        self.assertEqual(unsynced.size, BLOCK)


@unittest.skipIf(mounts.why_not(), f"no file system by FUSE: {mounts.why_not()}")
class Disks(Rooms):
    def setUp(self) -> None:
        super().setUp()
        self.point = self.room / "n1"
        self.point.mkdir()
        self.disk = Disk(self.point, self.room / "n1.disk")
        self.addCleanup(self.disk.end)

    def test_what_was_synced_stays(self) -> None:
        ways: "list[Callable[[int], object]]" = [os.fsync, os.fdatasync]
        for number, sync in enumerate(ways):
            path = self.point / f"file{number}"
            with open(path, "wb", buffering=0) as file:
                file.write(b"synced")
                sync(file.fileno())
                file.write(b" and not")
            self.assertEqual(path.read_bytes(), b"synced and not")
            self.assertEqual(self.disk.lose(), f"lost 1 {BLOCK}")
            self.assertEqual(path.read_bytes(), b"synced")
            self.assertEqual(self.disk.lose(), "lost 0 0")

    def test_a_file_that_syncs_each_write(self) -> None:
        for flag in (os.O_SYNC, os.O_DSYNC):
            file = os.open(self.point / "file", os.O_CREAT | os.O_WRONLY | os.O_TRUNC | flag)
            os.write(file, b"synced")
            os.close(file)
            self.disk.lose()
            self.assertEqual((self.point / "file").read_bytes(), b"synced")

    def test_what_a_process_changed_in_its_memory(self) -> None:
        code = ("import mmap, os, sys; file = os.open(sys.argv[1], os.O_RDWR); pages = mmap.mmap(file, 8192); pages[:5] = b'first'; "
                "pages.flush(); os.fsync(file); pages[:5] = b'later'; os.kill(os.getpid(), 9)")
        (self.point / "file").write_bytes(b"\0" * 8192)
        self.disk.sync()
        subprocess.run([sys.executable, "-c", code, str(self.point / "file")])
        self.assertEqual((self.point / "file").read_bytes()[:5], b"later")
        self.disk.lose()
        self.assertEqual((self.point / "file").read_bytes()[:5], b"first")

    def test_lengths_and_names(self) -> None:
        path = self.point / "file"
        path.write_bytes(b"123456")
        self.disk.sync()
        os.truncate(path, 2)
        path.rename(self.point / "new")
        (self.point / "other").write_bytes(b"unsynced")
        self.disk.lose()
        self.assertEqual((self.point / "new").read_bytes(), b"123456")  # the name is durable at once, the length is not
        self.assertEqual((self.point / "other").read_bytes(), b"")
        self.assertEqual(sorted(os.listdir(self.point)), ["new", "other"])

    def test_it_is_a_file_system(self) -> None:
        """A copied tree of files is the same, keeps links, modes and times, and can be removed."""
        source = pathlib.Path(__file__).parent
        shutil.copytree(source, self.point / "tree")
        both = filecmp.dircmp(source, self.point / "tree")
        self.assertEqual((both.left_only, both.right_only, both.diff_files), ([], [], []))
        one = self.point / "tree" / pathlib.Path(__file__).name
        self.assertEqual(one.stat().st_mtime_ns, pathlib.Path(__file__).stat().st_mtime_ns)
        os.symlink("tree", self.point / "symbolic")
        os.link(one, self.point / "hard")
        os.chmod(one, 0o640)
        self.assertEqual((os.readlink(self.point / "symbolic"), (self.point / "hard").stat().st_nlink), ("tree", 2))
        self.assertEqual((self.point / "hard").stat().st_mode & 0o777, 0o640)
        with open(self.point / "hard", "a+b") as file:
            os.unlink(self.point / "hard")
            file.write(b"end")
            file.flush()
            file.seek(-3, os.SEEK_END)
            self.assertEqual(file.read(), b"end")
        shutil.rmtree(self.point / "tree")
        self.assertEqual(os.listdir(self.point), ["symbolic"])
        with self.assertRaises(FileNotFoundError):
            (self.point / "none").read_bytes()

    def test_a_folder_of_many_files(self) -> None:
        for number in range(1500):
            (self.point / f"a file with a name that is long, number {number}").touch()
        self.assertEqual(len(set(os.listdir(self.point))), 1500)

    def test_it_is_gone_once_it_is_ended(self) -> None:
        self.disk.end()
        self.assertEqual(mounts.points_below(str(self.room)), [])
        with self.assertRaisesRegex(ServerError, "^the disk at .*n1 has ended"):
            self.disk.lose()

    def test_none_is_left_where_the_test_and_who_serves_it_are_killed(self) -> None:
        folder = self.room / "test"
        folder.mkdir()
        test = subprocess.Popen([sys.executable, "-c", TEST, str(folder)], stdout=subprocess.PIPE, env=environment())
        assert test.stdout is not None
        with test.stdout:
            served_by = int(test.stdout.readline())
        self.assertEqual(mounts.points_below(str(folder)), [str(folder / "n1")])
        for pid in (served_by, test.pid):
            os.kill(pid, signal.SIGKILL)
        test.wait()
        self.assertTrue(wait_for(lambda: not mounts.points_below(str(folder)) and not folder.exists()))


class Needs(Monitored):
    def given(self, nemesis: str) -> Given:
        return Given(MyServer, "register", "", 2.0, 5, 5, 1, nemesis, 0.0, 1, "proxy", 20, 0.0, str(self.room / "runs"), None)

    def test_where_nothing_can_be_mounted_it_is_said_before_anything_starts(self) -> None:
        with mock.patch.object(mounts, "why_not", return_value="/dev/fuse: No such file or directory"):
            with self.assertRaisesRegex(ServerError, r"^--nemesis power: it needs a file system by FUSE, as root on Linux: /dev/fuse: No such "
                                        r"file or directory; there are kill, pause, cut, slow"):
                planned(self.given("kill,power"))
            self.assertEqual(planned(self.given("all")).left_out.keys(), {"loss", "reorder", "corrupt"})

    def test_a_server_that_survives_the_loss_of_power(self) -> None:
        class Surviving(MyServer):
            survives_power = True

        with mock.patch.object(mounts, "why_not", return_value="/dev/fuse: Permission denied"):
            left_out = planned(self.given("all")._replace(server=Surviving)).left_out
        self.assertEqual(left_out["power"], "it needs a file system by FUSE, as root on Linux: /dev/fuse: Permission denied")
        self.assertEqual(left_out["power"], left_out["tear"])


if __name__ == "__main__":
    unittest.main()
