"""A Python that is too old, and a machine without one: one line, and a status that is not a verdict."""
from __future__ import annotations

import ast
import os
import pathlib
import shutil
import subprocess
import sys
import tempfile
import unittest
from typing import List

from . import TOP

READ_FIRST = ("python/jepmon/__init__.py", "python/jepmon/__main__.py")
AS_OLD = "import sys; sys.version_info = (3, 8, 18, 'final', 0); sys.argv[0] = {!r}; import jepmon"
TOOLS = ("judge", "test", "shards", "from-json", "runs")
SAID = "jepmon needs Python 3.9 or later, and this is 3.8: "


class Old(unittest.TestCase):
    def test_what_is_read_first_is_in_the_grammar_of_3_6(self) -> None:
        for name in READ_FIRST:
            text = (TOP / name).read_text()
            ast.parse(text, feature_version=(3, 6))
            self.assertNotIn("from __future__ import annotations", text)

    def ran(self, called: str) -> "subprocess.CompletedProcess[str]":
        return subprocess.run([sys.executable, "-c", AS_OLD.format(called)], capture_output=True, text=True,
                              env={**os.environ, "PYTHONPATH": str(TOP / "python")})

    def test_a_tool_says_so_in_one_line_and_ends_with_3(self) -> None:
        for called in ("-m", "/usr/bin/jepmon-judge", "examples/explain"):
            ran = self.ran(called)
            self.assertEqual((ran.returncode, ran.stdout), (3, ""))
            self.assertRegex(ran.stderr, f"^{SAID}.*\n$")

    def test_a_test_of_the_user_gets_an_import_error(self) -> None:
        self.assertIn(f"ImportError: {SAID}", self.ran("/home/me/my_test.py").stderr)


class Launchers(unittest.TestCase):
    def ran(self, words: List[str], path: str) -> "subprocess.CompletedProcess[str]":
        return subprocess.run(words, capture_output=True, text=True, env={"PATH": path, "JEPMON": os.environ.get("JEPMON", "/bin/true")})

    def test_without_python(self) -> None:
        with tempfile.TemporaryDirectory() as folder:
            for name in ("bash", "env", "dirname", "readlink", "sed"):
                pathlib.Path(folder, name).symlink_to(shutil.which(name) or name)
            for tool in TOOLS:
                ran = self.ran([str(TOP / f"jepmon-{tool}"), "FILE"], folder)
                self.assertEqual((ran.returncode, ran.stdout), (3, ""))
                self.assertEqual(ran.stderr, f"jepmon-{tool}: it needs Python 3.9 or later, and there is no python3 on the PATH\n")

    def test_each_tool_has_its_version_and_help(self) -> None:
        for tool in TOOLS:
            ran = subprocess.run([f"./jepmon-{tool}", "--version"], capture_output=True, text=True, cwd=TOP, env={**os.environ, "JEPMON": "/bin/true"})
            self.assertEqual(ran.returncode, 0, ran.stderr)
            self.assertRegex(ran.stdout, r"^jepmon \(Python\) \d+\.\d+\.\d+\n$")
        for name in ("explain", "from-jepsen"):
            ran = subprocess.run([sys.executable, str(TOP / "examples" / name), "--version"], capture_output=True, text=True)
            self.assertRegex(ran.stdout, r"^jepmon \(Python\) ")

    def test_help_of_scripts(self) -> None:
        for words in (["./check", "--help"], ["./jepmon", "install", "--help"], ["./jepmon", "build", "-h"], ["./jepmon", "origin", "--help"]):
            ran = subprocess.run(words, capture_output=True, text=True, cwd=TOP)
            self.assertEqual((ran.returncode, ran.stderr), (0, ""))
            self.assertRegex(ran.stdout, f"^{words[0]} ")
        for word, where in (("judge", "./jepmon-judge"), ("test", "./jepmon-test"), ("explain", "examples/explain")):
            ran = subprocess.run(["./jepmon", word], capture_output=True, text=True, cwd=TOP)
            self.assertEqual((ran.returncode, ran.stderr), (3, f"jepmon: {word} is a tool of its own: {where}\n"))


if __name__ == "__main__":
    unittest.main()
