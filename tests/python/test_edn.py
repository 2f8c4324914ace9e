"""The reader of EDN."""
import unittest

from jepmon import edn


def values(text, **options):
    return [edn.spelling(element.value) for element in edn.Reader(text, **options).elements()]


class Reading(unittest.TestCase):
    def test_elements_without_what_stands_before_them(self):
        self.assertEqual(values("1 #_ 2 3 ; 4\n#a/b {:k [1 (2)]} ^{:m 1} x #_ #_ 5 6 #t #_ 7 8"), ["1", "3", "{:k [1 (2)]}", "x", "8"])

    def test_lines_and_texts(self):
        read = list(edn.Reader("\n{:a\n 1}  #_ x\n; c\n [2\n]").elements())
        self.assertEqual([(element.line, element.text) for element in read], [(2, "{:a\n 1}"), (5, "[2\n]")])

    def test_one_vector_is_a_history(self):
        self.assertEqual([element.line for element in edn.Reader("[{:a 1}\n {:b 2}]").history()], [1, 2])

    def test_pieces(self):
        text = '{:a "x\ny\nz"\n :b #{1 2}}\n#t\n[1]\n"\\\n" 7'
        pieces = text.splitlines(True)
        self.assertEqual(list(edn.Reader(pieces).elements()), list(edn.Reader(text).elements()))

    def test_what_is_refused(self):
        for text, profile, want in (
            ("1\n}", False, "line 2: '}' closes nothing"),
            ("1\n}", True, "line 2: } closes nothing that is open"),
            ("1\n{:a 2.5}", True, "line 2: 2.5 is a number that is not an integer, which jepmon does not read"),
            ("1\n{:a {:b 2\n}", False, "line 2: the text ends within the '{' that begins here: was the file cut off?"),
            ("1\n{:a 2\n", True, "line 3: the text ends within an element: was the file cut off?"),
            ("[" * 33, True, "line 1: here more than 32 collections are open in one another"),
            ("{:a 1 :a 2}", True, "line 1: the map that begins here has a key twice"),
        ):
            with self.subTest(text=text, profile=profile), self.assertRaises(edn.Unreadable) as caught:
                values(text, profile=profile)
            self.assertEqual(str(caught.exception), want)


if __name__ == "__main__":
    unittest.main()
