"""The package as a whole: its version, its names, its tools."""
import pathlib
import re
import subprocess
import sys
import unittest

import jepmon
from tests.python import TOP

LONGEST = 400  # lines of a file


class Package(unittest.TestCase):
    def test_one_version(self) -> None:
        stated = re.search(r'^version = "(.*)"$', (TOP / "pyproject.toml").read_text(), re.M)
        assert stated is not None
        self.assertEqual(jepmon.__version__, stated[1])
        self.assertIn(f"## {stated[1]}\n", (TOP / "CHANGELOG.md").read_text())

    def test_each_name_is_there(self) -> None:
        for name in jepmon.__all__:
            self.assertTrue(hasattr(jepmon, name), name)
            self.assertIn(name, dir(jepmon))
        with self.assertRaises(AttributeError):
            jepmon.nothing

    def test_each_command_has_its_module(self) -> None:
        table = (TOP / "pyproject.toml").read_text().partition("[project.scripts]\n")[2]
        for name, module in re.findall(r'^([\w-]+) = "jepmon\.(\w+):main"$', table, re.M):
            folder = TOP / "python" / "jepmon"
            self.assertTrue((folder / f"{module}.py").exists() or (folder / module / "__init__.py").exists(), name)

    def test_the_tools_begin_fast(self) -> None:
        """Only the modules that the tools need are loaded: the Monitor's modules, as those that run programs, are not."""
        code = "import sys, jepmon.from_jepsen.tool; print(sorted({'subprocess', 'threading', 'tempfile', 'decimal'} & set(sys.modules)))"
        ran = subprocess.run([sys.executable, "-S", "-c", code], cwd=TOP / "python", stdout=subprocess.PIPE, universal_newlines=True)
        self.assertEqual(ran.stdout, "[]\n")

    def test_files_are_short(self) -> None:
        files = [*(TOP / "python").rglob("*.py"), *(TOP / "tests" / "python").rglob("*.py")]
        long = {file.name: len(file.read_text().splitlines()) for file in files}
        self.assertEqual({name: lines for name, lines in long.items() if lines > LONGEST}, {})

    def test_words_of_the_module(self) -> None:
        for words, status, text in ((["--version"], 0, f"jepmon (Python) {jepmon.__version__}\n"), ([], 3, ""), (["judges"], 3, "")):
            ran = subprocess.run([sys.executable, "-m", "jepmon", *words], cwd=TOP / "python", stdout=subprocess.PIPE,
                                 stderr=subprocess.PIPE, universal_newlines=True)
            self.assertEqual((ran.returncode, ran.stdout, ran.stderr.count("\n")), (status, text, 0 if status == 0 else 1))


class Shims(unittest.TestCase):
    def test_examples_are_a_few_lines(self) -> None:
        for name in ("from-jepsen", "explain"):
            shim = pathlib.Path(TOP, "examples", name).read_text()
            self.assertLess(len(shim.splitlines()), 15, name)


if __name__ == "__main__":
    unittest.main()
