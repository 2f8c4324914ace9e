"""The account of an input: each line is of an event or skipped, and each guess names an option."""
from __future__ import annotations

import pickle
import unittest

from jepmon.forms import Refused, account
from jepmon.forms.account import Account, lines_of


class Lines(unittest.TestCase):
    def test_each_line_counts_once(self) -> None:
        made = Account()
        for first, last in ((1, 1), (1, 1), (2, 4), (4, 4), (4, 5)):  # two events in line 1; one event in the lines 2 to 4
            made.took(first, last)
        made.skip("blank", 2)
        made.close(7)
        self.assertEqual((made.taken, dict(made.skipped)), (5, {"blank": 2}))
        self.assertEqual(list(made.told()), ["7 lines, 5 of events; skipped: 2 blank"])

    def test_a_line_that_is_missing_is_refused(self) -> None:
        made = Account()
        made.took(1, 1)
        with self.assertRaisesRegex(Refused, "of 3 lines 1 are of events, and 0 were skipped"):
            made.close(3)

    def test_parts_are_joined(self) -> None:
        whole = Account()
        for _ in range(2):
            part = Account()
            part.took(1, 2)
            part.skip("comment")
            part.guess(account.KEY, "all is one object, key 0", "--key K")
            part.close(3)
            whole.add(pickle.loads(pickle.dumps(part)))
        self.assertEqual((whole.lines, whole.taken, dict(whole.skipped), len(whole.guesses)), (6, 4, {"comment": 2}, 1))

    def test_lines_of_a_text(self) -> None:
        self.assertEqual([lines_of(text) for text in ("", "\n", "a", "a\n", "a\nb", "\n\n")], [0, 1, 1, 1, 2, 2])


class Guesses(unittest.TestCase):
    def test_one_line_each_that_names_the_option(self) -> None:
        made = Account()
        for _ in range(2):
            made.guess(account.MODEL, "register, by its operations: read, write", "--model NAME")
        self.assertEqual(list(made.told()), ["guess of the model: register, by its operations: read, write; --model NAME settles it"])

    def test_strict_input_refuses_them(self) -> None:
        made = Account()
        made.test_strict()
        made.guess(account.MODEL, "register", "--model NAME")
        with self.assertRaisesRegex(Refused, "there is 1: say --model NAME"):
            made.test_strict()
        made.guess(account.KEY, "key 0", "--key K")
        with self.assertRaisesRegex(Refused, "there are 2: say --model NAME, --key K"):
            made.test_strict()


if __name__ == "__main__":
    unittest.main()
