"""One expression reads most lines of a history: with the same result as field by field, also if something is wrong."""
from __future__ import annotations

import random
import time
import unittest
from typing import List, Optional, Tuple
from unittest import mock

from jepmon.from_jepsen import Refusal, turn
from jepmon.from_jepsen import collect, plain
from jepmon.from_jepsen.events import Event
from jepmon.from_jepsen.plain import plain_of

from .fuzz import EACH

LINE = "{:type :invoke, :f :read, :value [1 nil], :time 5, :process 2, :index 0}\n"
ORDERS = ((":type", ":f", ":value", ":time", ":process", ":index"), (":process", ":type", ":f", ":value"),
          (":index", ":time", ":process", ":type", ":f", ":value"))
ENDS = ("\n", "\n", "\n", "\r\n", "\n  ", " ", " \n", "\n\n")
TAGS = ("", "", "#jepsen.history.Op", "#jepsen.history.Op ", "#a.Op")
ERRORS = (":timeout", '"a } {b"', '[:timeout "n1" 1]', "nil", '"\\""', "[:a [:b]]", "{:a 1}", '"a\nb"')
BEFORE = ("{:type :info, :f :start, :process :nemesis, :value nil}\n", "; comment\n", "\n\n", "{:process :nemesis, :f :heal, :type :info, :value [1]}\n")
ODD = {":type": (":okay", "ok", "nil"), ":f": (":drain", ":cas", ":txn", ":start"), ":process": (":nemesis", "01", "-1", "9" * 30, "1N", "nil"),
       ":time": ("1.5", "nil", "007"), ":index": ("-1", "nil", "00", "9" * 25),
       ":value": ("[1 [2 3]]", "[1 #{1 2}]", "[1]", "[1 2 3]", "nil", "[:x 1]", '["a" 1]', "[1 \"b\"]", "[nil nil]", "[+1 1]", "[1 +2]",
                  "[1N 2]", "[1 -0]", "[1 01]", "[1  2]", "[1 2.5]", "[1 [+2 3]]", "[0 [nil 1]]", "[0 [1 2 3]]", "[1, 2]", "[2 [1  2]]", "[1 :ok]", "12", "-3", "[1 9223372036854775808]", "{:key 1 :value 2}")}
NAMES = (":read", ":write", ":cas", ":enqueue", ":dequeue", ":add", ":acquire", ":release")


def made(draws: random.Random, has_keys: bool) -> str:
    """A history, mostly of plain events, in which some things are odd."""
    order, names = draws.choice(ORDERS), draws.sample(NAMES, draws.choice((1, 2, 2, 2, 8)))
    odd, errors = draws.choice((0.0, 0.0, 0.002, 0.02, 0.2)), draws.choice((0.0, 0.1, 0.5))
    tag, end = draws.choice(TAGS), draws.choice(ENDS)
    opened: List[Optional[Tuple[str, str, str]]] = [None] * 4
    lines = []
    for index in range(draws.randrange(1, 60)):
        thread = draws.randrange(len(opened))
        begun = opened[thread]
        if begun is None:
            name, key = draws.choice(names), str(draws.randrange(3))
            part = "nil" if name in (":read", ":dequeue", ":acquire", ":release") else str(draws.randrange(-2, 40))
            part = f"[{part} {draws.randrange(9)}]" if name == ":cas" else part
            kind, opened[thread] = ":invoke", (name, key, part)
        else:
            name, key, part = begun
            kind, opened[thread] = draws.choice((":ok", ":ok", ":ok", ":fail", ":info")), None
            if kind == ":ok" and name in (":read", ":dequeue"):
                part = draws.choice(("nil", "1", "7", "-2"))
        fields = {":type": kind, ":f": name, ":process": str(thread), ":time": str(index * 7), ":index": str(index),
                  ":value": f"[{key} {part}]" if has_keys else part}
        for field, others in ODD.items():
            if draws.random() < odd:
                fields[field] = draws.choice(others)
        text = ", ".join(f"{field} {fields[field]}" for field in (draws.sample(order, len(order)) if draws.random() < odd else order))
        if kind in (":fail", ":info") and draws.random() < errors:
            text = draws.choice((text + ", :error {}", text.replace(", :index", ", :error {}, :index"))).replace("{}", draws.choice(ERRORS))
        more = draws.choice((", :f :read", ", :node [1 2]", ", :value [1 1]", ", :a-b/c nil, :d 1", ",", ", :a")) if draws.random() < odd else ""
        lines.append(draws.choice(("#_", "; ", " ", "[", "^:a ", "#t ")) * (draws.random() < odd / 4) + tag + "{" + text + more + "}" + end)
    text = draws.choice(BEFORE) * (draws.random() < 0.2) + "".join(lines)
    return text if draws.random() < 0.8 else "[" + text + "]"


def outcome(text: str, key: Optional[str], nil_is_absent: bool) -> "tuple[object, ...]":
    try:
        turned = turn(text, key, nil_is_absent)
    except Refusal as fault:
        return (str(fault),)
    return turned.text(), list(turned.history.events), turned.notes, turned.advice, turned.concurrency, turned.model


class PlainEvents(unittest.TestCase):
    def test_the_same_as_field_by_field(self) -> None:
        draws, whole, refused = random.Random(7), 0, 0
        for _ in range(60 * EACH):
            has_keys, nil_is_absent = draws.random() < 0.7, draws.random() < 0.3
            text, key = made(draws, has_keys), None if has_keys else draws.choice(("0", ":r", None))
            with self.subTest(text=text, key=key):
                found = outcome(text, key, nil_is_absent)
                with mock.patch.object(collect, "plain_of", lambda *_: None):
                    self.assertEqual(found, outcome(text, key, nil_is_absent))
                with mock.patch.object(plain, "LONGEST", draws.choice((90, 300, 1000))):
                    self.assertEqual(found, outcome(text, key, nil_is_absent))
            whole, refused = whole + (len(found) > 1), refused + (len(found) == 1)
        self.assertGreater(min(whole, refused), 10)

    def test_most_lines_of_a_history_are_plain(self) -> None:
        cas = LINE.replace("read", "cas").replace("nil", "[1 2]")
        lines = LINE, LINE.replace("invoke", "ok").replace("nil", "3"), cas, cas.replace("invoke", "fail").replace("0}", "0, :node 7, :error [:no 3]}")
        history = "".join(line.replace(":index 0", f":index {place}") for place, line in enumerate(lines))
        for text in (history, history.replace("{", "#jepsen.history.Op{"), history.replace("\n", "\r\n"), "[" + history.replace("\n", "\n ") + "]"):
            with mock.patch.object(collect.Collector, "take", side_effect=AssertionError("it was read field by field")):
                self.assertEqual([event.line for event in turn(text).history.events if isinstance(event, Event)], [1, 2, 3, 4])

    def test_lines_that_are_not_plain_take_little_longer_than_without_the_expression(self) -> None:
        odd = LINE.replace(":index", ":odd [:a [1]], :index")
        text = LINE + (LINE.replace("invoke", "ok") + odd + odd.replace("invoke", "ok") + LINE) * 1000

        def seconds() -> float:
            began = time.process_time()
            turn(text)
            return time.process_time() - began

        with mock.patch.object(collect, "plain_of", lambda *_: None):
            without = min(seconds() for _ in range(3))
        self.assertLess(min(seconds() for _ in range(3)), 2 * without)

    def test_the_first_event_of_a_client_says_what_is_plain(self) -> None:
        for text in ("", "{}", "; comment\n", "{:a 1}\n", "{:type :ok, :f :read, :process 1}\n", "[1 2]", LINE[:-2]):
            self.assertIsNone(plain_of(text, True))
            self.assertIsNotNone(plain_of(text + "\n" + LINE, True))
        for text in (LINE, "[" + LINE, "(" + LINE + ")", LINE[:-1]):
            self.assertIsNotNone(plain_of(text, True))


if __name__ == "__main__":
    unittest.main()
