"""The common parts of the commands: exit statuses and outputs."""
import os
import pathlib
import subprocess
import sys
import tempfile
import unittest
from unittest import mock

from jepmon import __version__
from jepmon.tools import command
from tests.python import TOP


def ended(code: str, shell: str = '"$@"') -> "subprocess.CompletedProcess[str]":
    """Runs a command of which this is the work, so that the shell may close or exchange its files."""
    program = f"import sys; sys.path.insert(0, {str(TOP / 'python')!r}); from jepmon.tools import command\n{code}"
    buffered = {name: value for name, value in os.environ.items() if name != "PYTHONUNBUFFERED"}  # as it is on most machines
    return subprocess.run(["sh", "-c", shell, "sh", sys.executable, "-c", program], stdin=subprocess.DEVNULL, stdout=subprocess.PIPE,
                          stderr=subprocess.PIPE, universal_newlines=True, timeout=60, env=buffered)


class Called(unittest.TestCase):
    def test_by_a_script_of_the_repository(self) -> None:
        """The printed command that calls a tool again is the one that called it."""
        with mock.patch.object(sys, "argv", ["/somewhere/jepmon/__main__.py"]), mock.patch.dict(os.environ, JEPMON_CALLED="./jepmon-judge"):
            self.assertEqual((command.tool("judge"), command.tool("explain")), ("./jepmon-judge", "python3 -m jepmon explain"))

    def test_the_script_says_how(self) -> None:
        ran = subprocess.run(["./jepmon-judge", "--budget", "x", "-"], cwd=TOP, env=dict(os.environ, JEPMON="jepmon"), input=b"",
                             stdout=subprocess.PIPE, stderr=subprocess.PIPE, timeout=60)
        want = b"judge: argument --budget: it takes a number of ends, 1 to 65536; see ./jepmon-judge --help\n"
        self.assertEqual((ran.returncode, ran.stdout, ran.stderr), (3, b"", want))

    def test_version(self) -> None:
        ran = subprocess.run(["./jepmon-judge", "--version"], cwd=TOP, env=dict(os.environ, JEPMON="jepmon"), stdout=subprocess.PIPE, timeout=60)
        self.assertEqual((ran.returncode, ran.stdout), (0, f"jepmon (Python) {__version__}\n".encode()))


class Ends(unittest.TestCase):
    def test_what_is_raised_is_one_line(self) -> None:
        for raised, status, want in (
            ("KeyboardInterrupt", 130, ""),
            ("command.OutputError('page.html can not be written')", 3, "tool: page.html can not be written\n"),
            ("command.ProgramError('there is no jepmon')", 3, "tool: there is no jepmon\n"),
            ("ValueError('x')", 3, "tool: a fault of tool itself: ValueError('x')\n"),
        ):
            ran = ended(f"def main(): raise {raised}\nsys.exit(command.run('tool', main))")
            self.assertEqual((ran.returncode, ran.stdout, ran.stderr), (status, "", want))

    def test_output_that_nobody_takes(self) -> None:
        code = "def main():\n  command.write_output(['line\\n'] * 100000)\n  return 0\nsys.exit(command.run('tool', main))"
        for shell, want in (('"$@" | head -n 1 >/dev/null', "Broken pipe"), ('"$@" >/dev/full', "No space left on device"),
                            ('"$@" >&-', "standard output is closed")):
            ran = ended(code, shell)
            self.assertEqual(ran.stderr, f"tool: the output can't be written: {want}\n")

    def test_errors_that_nobody_takes(self) -> None:
        code = "def main():\n  command.say('tool', 'x')\n  print('here')\n  return 1\nsys.exit(command.run('tool', main))"
        for shell in ('"$@" 2>&-', '"$@" 2>/dev/full'):
            ran = ended(code, shell)
            self.assertEqual((ran.returncode, ran.stdout), (1, "here\n"))

    def test_how_a_tool_is_called(self) -> None:
        for name, want in (("/venv/bin/jepmon-judge", "jepmon-explain"), ("/x/jepmon/__main__.py", "python3 -m jepmon explain"),
                           ("examples/explain", "examples/explain")):
            with mock.patch.object(sys, "argv", [name]):
                self.assertEqual(command.tool("explain"), want)


class Files(unittest.TestCase):
    def setUp(self) -> None:
        room = tempfile.TemporaryDirectory()
        self.addCleanup(room.cleanup)
        self.room = pathlib.Path(room.name)

    def test_a_file_is_written_whole(self) -> None:
        command.write_file(self.room / "page.html", "old")
        command.write_file(self.room / "page.html", b"new")
        self.assertEqual((self.room / "page.html").read_bytes(), b"new")
        mask = os.umask(0o077)
        os.umask(mask)
        self.assertEqual((self.room / "page.html").stat().st_mode & 0o777, 0o666 & ~mask)
        self.assertEqual(os.listdir(self.room), ["page.html"])

    def test_what_fails_leaves_the_old_one(self) -> None:
        command.write_file(self.room / "page.html", "old")
        with mock.patch("os.replace", side_effect=OSError(28, "No space left on device")):
            with self.assertRaises(command.OutputError) as caught:
                command.write_file(self.room / "page.html", "new")
        self.assertEqual(str(caught.exception), f"{self.room}/page.html can't be written: No space left on device")
        self.assertEqual((os.listdir(self.room), (self.room / "page.html").read_text()), (["page.html"], "old"))

    def test_where_nothing_can_be_written(self) -> None:
        for path, why in ((self.room / "none" / "page.html", "No such file or directory"), (self.room, "Is a directory")):
            with self.assertRaises(command.OutputError) as caught:
                command.write_file(path, "x")
            self.assertEqual(str(caught.exception), f"{path} can't be written: {why}")

    def test_a_link_and_a_device(self) -> None:
        (self.room / "link").symlink_to(self.room / "page.html")
        command.write_file(self.room / "link", "x")
        self.assertTrue((self.room / "link").is_symlink())
        self.assertEqual((self.room / "page.html").read_text(), "x")
        command.write_file("/dev/null", "x")


if __name__ == "__main__":
    unittest.main()
