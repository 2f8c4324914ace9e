"""Histories in jepmon's own form."""
import unittest

from jepmon import history

TEXT = """; a comment
{:type :invoke, :process 0, :f :write, :value [7 1], :time 12}
{:type :ok, :process 0, :f :write, :value [7 1]}
{:type :info, :process :nemesis, :f :pause, :value 2}
{:type :invoke, :process 1, :f :read, :value [7 nil]}
{:type :ok, :process 1,   :f :read,
 :value [7 1]}
{:type :invoke, :process 2, :f :cas, :value [8 [1 2]]}
"""


class Reading(unittest.TestCase):
    def test_events(self):
        events = history.read_history(TEXT)
        self.assertEqual([event.index for event in events], list(range(6)))
        self.assertEqual([event.value for event in events], [1, 1, None, None, 1, (1, 2)])
        self.assertEqual(events[0].fields, {"time": 12})
        self.assertEqual((events[4].line, events[4].text), (6, "{:type :ok, :process 1, :f :read, :value [7 1]}"))
        self.assertEqual([event.index for event in history.of_key(events, 7)], [0, 1, 3, 4])

    def test_operations(self):
        made = history.operations(history.read_history(TEXT), 2)
        self.assertEqual([(operation.invocation.index, operation.outcome, operation.thread) for operation in made],
                         [(0, "ok", 0), (3, "ok", 1), (5, "open", 0)])

    def test_what_is_refused(self):
        for text, want in (
            ("\n{:type :ok}", "line 2: it has no :process and no :f and no :value"),
            ("{:type :ok, :process 0, :f :read, :value 7}", "line 1: its :value is not [key part]; where the history has no keys, jepmon-from-jepsen --key 0 makes each value one"),
            ("{:type :ok, :process 0, :f :read, :value [7 :x]}", "line 1: the part of :ok of read is nil, an integer or a set of integers"),
            ("7", "line 1: it is not a map, so not an event; commands such as [:model k m] are of jepmon script"),
        ):
            with self.subTest(text=text), self.assertRaises(history.HistoryError) as caught:
                history.read_history(text)
            self.assertEqual(str(caught.exception), want)


if __name__ == "__main__":
    unittest.main()
