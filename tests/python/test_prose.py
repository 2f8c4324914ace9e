"""Tries the warnings about prose on the pairs of docs/STYLE.md: the first sentence of a pair has a warning, the second one none."""
import pathlib
import re
import tempfile
import unittest
from typing import List

from tests.prose_rules.rules import warnings_of
from tests.prose_rules.texts import Sentence, sentences_of

TOP = pathlib.Path(__file__).resolve().parent.parent.parent
PAIR = re.compile(r"   - `(.*)` -> `(.*)`")


def advice_on(text: str) -> List[str]:
    return [one.advice for one in warnings_of(Sentence(TOP, 1, text, "text", False))]


def of_file(name: str, text: str) -> List[Sentence]:
    with tempfile.TemporaryDirectory() as folder:
        path = pathlib.Path(folder, name)
        path.write_text(text)
        return list(sentences_of(path))


class Prose(unittest.TestCase):
    def test_pairs(self) -> None:
        pairs = PAIR.findall((TOP / "docs" / "STYLE.md").read_text())
        self.assertGreaterEqual(len(pairs), 7)
        for before, after in pairs:
            with self.subTest(before):
                self.assertTrue(advice_on(before))
                self.assertEqual(advice_on(after), [])

    def test_titles(self) -> None:
        found = of_file("a.md", "# What only judges?\n\n## A core that only judges\n")
        self.assertEqual([len(list(warnings_of(one))) for one in found], [1, 0])

    def test_code_is_no_prose(self) -> None:
        found = of_file("a.md", "Use `so many of it`.\n\n```sh\nso many words\n```\n\n| `anew` | text |\n")
        self.assertEqual([one.text for one in found], ["Use CODE.", "CODE", "text"])

    def test_comments(self) -> None:
        found = of_file("a.rt", "/// Gives it.\n/// Twice.\nfn f() {}\n// Else not.\n")
        self.assertEqual([(one.line, one.text) for one in found], [(1, "Gives it."), (1, "Twice."), (4, "Else not.")])

    def test_python(self) -> None:
        found = of_file("a.py", '"""Says it."""\n# A note.\nprint("this file has no line that can be read")\n')
        self.assertEqual([one.text for one in found], ["Says it.", "this file has no line that can be read", "A note."])

    def test_an_entry_of_a_list_of_names_is_an_item(self) -> None:
        found = of_file("a.py", '"""Has two.\n\none    the first,\n       with a line more\ntwo    the second\n"""\n')
        self.assertEqual([one.text for one in found], ["Has two.", "the first, with a line more", "the second"])

    def test_a_line_may_be_left_out(self) -> None:
        self.assertEqual(of_file("a.md", "This is no word. <!-- prose: ok -->\n"), [])


if __name__ == "__main__":
    unittest.main()
