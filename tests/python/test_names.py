"""The meaning of numbers, in the comments of a history and in texts for people."""
import unittest

from jepmon.history import kinds
from jepmon.history.names import Names
from jepmon.tools.command import printable

COMMENTS = '; key 0 is :x\n; value 0 is "a"\n; value -1 is #{1 2}\n'


class Turning(unittest.TestCase):
    def test_comments_are_read_as_they_are_written(self) -> None:
        names = Names({0: ":x"}, {0: '"a"', -1: "#{1 2}"})
        self.assertEqual("".join(names.comments()), COMMENTS)
        read = Names.read("{:type :ok}\n" + COMMENTS + "; a comment\n; key x is 3\n")
        self.assertEqual((read.keys, read.values), (names.keys, names.values))

    def test_events(self) -> None:
        names = Names.read(COMMENTS)
        for text, want in (
            ("{:f :write, :value [0 0], :time 0}", '{:f :write, :value [:x "a"], :time 0}'),
            ("{:f :cas, :value [0 [0 5]]}", '{:f :cas, :value [:x ["a" 5]]}'),
            ("{:f :read, :value [0 #{-1 7 0}]}", '{:f :read, :value [:x #{#{1 2} 7 "a"}]}'),
            ("{:f :read, :value [12 nil]}", "{:f :read, :value [12 nil]}"),
            (f"{{:f :read, :value [5 {kinds.ABSENT}]}}", "{:f :read, :value [5 ABSENT]}"),
            ("{:f :heal, :value nil}", "{:f :heal, :value nil}"),
        ):
            self.assertEqual(names.event(text), want)

    def test_a_name_is_one_line_and_obeys_nothing(self) -> None:
        comment = "".join(Names({}, {1: "a\nb\x1b[2J" + "x" * 1000}).comments())
        self.assertTrue(comment.startswith("; value 1 is a\\nb\\x1b[2J"))
        self.assertEqual((comment.count("\n"), len(comment) < 500), (1, True))
        self.assertEqual(printable("é\t\u202e"), "é\t\\u202e")


if __name__ == "__main__":
    unittest.main()
