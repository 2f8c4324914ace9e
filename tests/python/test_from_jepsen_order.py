"""The order of events in EDN, clients with names, and an :ok that says of itself that it is none. The right results are written by hand."""
from __future__ import annotations

import re
import unittest
from typing import Any, List

from jepmon.forms.account import Account
from jepmon.forms.order import APART, ONE_CLOCK
from jepmon.from_jepsen import Refusal, turn
from jepmon.from_jepsen.events import Event

HOLD = ("0 invoke acquire nil 1", "0 ok acquire nil 2", "0 invoke release nil 7", "0 ok release nil 8", "1 invoke acquire nil 3",
        "1 ok acquire nil 4")  # two clients that hold one lock, their files one behind the other
IN_TIME = [HOLD[place] for place in (0, 1, 4, 5, 2, 3)]


def text(*events: str, times: bool = True, indices: str = "") -> str:
    lines = []
    for place, event in enumerate(events):
        process, kind, name, value, *time = event.split(" ")
        further = f", :time {time[0]}" if times and time else ""
        further += f", :index {indices.split()[place]}" if indices else ""
        lines.append(f"{{:process {process}, :type :{kind}, :f :{name}, :value {value}{further}}}\n")
    return "".join(lines)


class Turned(unittest.TestCase):
    def turned(self, given: str, **options: Any) -> List[str]:
        """The events that come of it: the client, the type and the operation; and what is guessed."""
        self.account = Account()
        made = turn(given, "0", account=self.account, **options)
        self.notes = made.notes
        return [f"{event.process} {event.kind[1:]} {event.name[1:]}" for event in made.history.events if isinstance(event, Event)]

    def refused(self, given: str, **options: Any) -> str:
        with self.assertRaises(Refusal) as caught:
            self.turned(given, **options)
        return str(caught.exception)

    def guesses(self) -> List[str]:
        return [guess.option for guess in self.account.guesses]

    def assumed(self) -> List[str]:
        return [guess.assumed for guess in self.account.guesses]


class Order(Turned):
    def want(self, events: List[str]) -> List[str]:
        return [" ".join(event.split(" ")[:3]) for event in events]

    def test_times_that_go_back(self) -> None:
        """Operations are paired by client, and go by their times."""
        self.assertEqual(self.turned(text(*HOLD)), self.want(IN_TIME))
        self.assertEqual(self.guesses(), ["--order times"])
        self.assertEqual(self.turned(text(*HOLD), order="times"), self.want(IN_TIME))
        self.assertEqual(self.guesses(), [])
        self.assertEqual(self.turned(text(*HOLD), order="lines"), self.want(list(HOLD)))

    def test_times_in_fractions(self) -> None:
        events = [f"{event[:-1]}1.0000000{event[-1]}" for event in HOLD]
        self.assertEqual(self.turned(text(*events)), self.want(IN_TIME))

    def test_times_that_are_missing(self) -> None:
        self.assertIn("the event of line 6 has no :time: which came first?", self.refused(text(*HOLD[:5], "1 ok acquire nil")))

    def test_operations_that_touch_are_open_at_once(self) -> None:
        events = ("0 invoke write 1 1", "0 ok write 1 5", "1 invoke read nil 5", "1 ok read nil 6", "2 invoke read nil 0", "2 ok read nil 9")
        self.assertEqual(self.turned(text(*events))[-4:-1], ["1 invoke read", "0 ok write", "1 ok read"])

    def test_a_clock_error(self) -> None:
        events = ("0 invoke write 1 1", "0 ok write 1 5", "1 invoke read nil 8", "1 ok read nil 9")
        self.assertEqual(self.turned(text(*events), skew=1)[1], "0 ok write")
        self.assertEqual(self.turned(text(*events), skew=2)[1], "1 invoke read")

    def test_a_client_whose_times_go_back(self) -> None:
        events = ("0 invoke write 1 3", "0 ok write 1 4", "0 invoke read nil 1", "0 ok read 1 2")
        self.assertIn("line 3: the :time of process 0 goes back", self.refused(text(*events)))

    def test_an_index_that_rises_is_the_order(self) -> None:
        """Jepsen takes the time a moment before it writes the event down."""
        self.assertEqual(self.turned(text(*HOLD, indices="0 1 5 6 7 9")), self.want(list(HOLD)))
        self.assertEqual(self.guesses(), [])
        self.assertIn("times go back by 5 at most, first in line 5, while each :index rises, which is the order: 2", self.notes)

    def test_lines_that_were_sorted_by_something_else(self) -> None:
        given = text(*HOLD, times=False, indices="0 1 4 5 2 3")
        self.assertEqual(self.turned(given), self.want(IN_TIME))
        self.assertEqual(self.guesses(), ["--order index"])
        self.assertEqual(self.turned(given, order="index"), self.want(IN_TIME))

    def test_an_index_against_the_times(self) -> None:
        self.assertIn("the :index goes back, and the :time does not: which is the order?", self.refused(text(*IN_TIME, indices="0 1 4 5 2 3")))

    def test_two_runs(self) -> None:
        events = ("0 invoke write 1", "0 ok write 1", "0 invoke read nil", "0 ok read 0")
        self.assertIn("line 3: the :index begins again, and process 0 is on both sides: are there two runs in one file?",
                      self.refused(text(*events, indices="0 1 0 1")))
        self.assertEqual(self.turned(text(*events, indices="0 1 0 1"), order="lines"), self.want(list(events)))

    def test_files_of_clients_with_an_index_each(self) -> None:
        self.assertEqual(self.turned(text(*HOLD, indices="0 1 2 3 0 1")), self.want(IN_TIME))
        self.assertIn("events are not in their order", self.refused(text(*HOLD, times=False, indices="0 1 2 3 0 1")))

    def test_files_that_pass(self) -> None:
        """Edited files: with gaps, without some; and an :index that is the number of an operation."""
        events = ("0 invoke write 1 1", "1 invoke read nil 2", "0 ok write 1 3", "1 ok read 1 4")
        for indices in ("3 5 9 11", "0 1 0 1", "7 7 7 7"):
            with self.subTest(indices=indices):
                self.assertEqual(self.turned(text(*events, indices=indices)), self.want(list(events)))
                self.assertEqual(self.guesses(), [])

    def test_an_index_twice(self) -> None:
        events = ("0 invoke write 1 1", "1 invoke read nil 2", "0 ok write 1 3", "1 ok read 1 4")
        for indices, line, index, first in (("3 3 4 4", 2, 3, 1), ("0 1 1 2", 3, 1, 2)):
            said = self.refused(text(*events, indices=indices))
            self.assertIn(f"line {line}: the :index {index} is that of line {first} too: are there two runs in one file? --order lines", said)
            self.assertEqual(self.turned(text(*events, indices=indices), order="lines"), self.want(list(events)))
        serial = ("0 invoke write 1", "0 ok write 1", "1 invoke read nil", "1 ok read 1")
        self.assertEqual(self.turned(text(*serial, indices="0 0 1 1")), self.want(list(serial)))

    def test_instants(self) -> None:
        """As EDN writes them; those of one history are all of one kind."""
        for tag in ("#inst,", ""):
            events = [re.sub(r" (\d)$", rf' {tag}"2026-11-30T09:00:00.00\1Z"', event) for event in HOLD]
            self.assertEqual(self.turned(text(*events)), self.want(IN_TIME))
            self.assertEqual(self.guesses(), ["--order times"])
        self.assertIn("is a time of another kind than those before it", self.refused(text(*HOLD[:4], *events[4:])))
        self.assertIn("is a time of another kind than those before it", self.refused(text(*events[:4], *HOLD[4:])))

    def test_times_that_are_none(self) -> None:
        for time in ('"09:00"', ":noon", "[1]", "x"):
            given = text(*HOLD[:3], f"0 ok release nil {time}")
            self.assertRegex(self.refused(given), f"line 4: .*; --order lines takes the events in the order of their lines")
            self.assertEqual(self.turned(given, order="lines"), self.want(list(HOLD[:4])))
        self.assertEqual(self.turned(text("0 invoke read nil nil", "0 ok read 1 nil")), ["0 invoke read", "0 ok read"])

    def test_clients_one_behind_the_other_without_times(self) -> None:
        """The first event is not known."""
        first = [f"0 {kind} write {value}" for value in (1, 2) for kind in ("invoke", "ok")]
        for process in ("1", ":c1"):
            second = [f"{process} {kind} read {part}" for _ in range(2) for kind, part in (("invoke", "nil"), ("ok", "1"))]
            given = text(*first, *second)
            for way in (given, given.replace("{:process", "{:x 1.5, :process")):
                self.assertIn("line 5: the events of each client stand together, as in files put one behind the other, and have no times: which came "
                              "first? say --order lines if the order of the lines is the order of the events", self.refused(way))
            self.assertEqual([event.split(" ", 1)[1] for event in self.turned(given, order="lines")[3:5]], ["ok write", "invoke read"])
            self.assertEqual(self.guesses(), [])
        self.turned(text(*first[:2], *second[:2]))
        self.assertEqual(self.guesses(), ["--order lines"])
        for given in (text(*first, *second[:2], *first[:2]), text(*first), text(*first, *second, indices="0 1 2 3 4 5 6 7")):
            self.turned(given)
            self.assertEqual(self.guesses(), [])

    def test_clients_one_behind_the_other_with_times(self) -> None:
        """That their times are of one clock is a guess."""
        events = [f"{process} {kind} {part}" for process in (0, 1) for kind, part in (("invoke", "write 1"), ("ok", "write 1"))]
        given = text(*(f"{event} {place}" for place, event in enumerate(events)))
        self.turned(given)
        self.assertEqual(self.assumed(), [ONE_CLOCK])
        self.turned(given, order="lines")
        self.assertEqual(self.guesses(), [])
        self.turned(given, skew=0)
        self.assertEqual(self.guesses(), [])
        self.turned(text(*(f"{event} {place}" for place, event in zip((0, 1, 200, 201), events))))
        self.assertEqual(self.assumed(), [APART])
        self.turned(text(*(f"{event} {place}" for place, event in enumerate(events)), indices="0 1 2 3"))
        self.assertEqual(self.guesses(), [])
        # An :index of each operation says nothing of the order of events.
        self.turned(text(*(f"{event} {place}" for place, event in enumerate(events)), indices="0 0 1 1"))
        self.assertEqual(self.assumed(), [ONE_CLOCK])

    def test_nodes_one_behind_the_other(self) -> None:
        """Several clients that stand together behind all others."""
        events = [f"{process} {kind} write 1" for first in (0, 2) for kind in ("invoke", "ok") for process in (first, first + 1)]
        self.turned(text(*events))
        self.assertEqual(self.assumed(), ["the events of some clients stand behind those of all others, as in files put one behind the other, and "
                                          "have no times: they are taken in the order of their lines"])
        self.turned(text(*(f"{event} {place}" for place, event in enumerate(events))))
        self.assertEqual(self.assumed(), [ONE_CLOCK])
        self.turned(text(*(f"{event} {place}" for place, event in enumerate([*events, "1 invoke write 1", "1 ok write 1"]))))
        self.assertEqual(self.guesses(), [])

    def test_times_that_not_all_have(self) -> None:
        events = [f"{process} {kind} write 1" for process in (0, 1) for kind in ("invoke", "ok")]
        given = text(*(f"{event} {place}" if place < 2 else event for place, event in enumerate(events)))
        self.turned(given)
        self.assertIn("and not all have times", self.assumed()[0])

    def test_events_that_do_not_pair_as_they_stand(self) -> None:
        self.assertEqual(self.turned(text(*(HOLD[place] for place in (1, 0, 2, 3, 5, 4)), indices="1 0 4 5 3 2")), self.want(IN_TIME))
        self.assertIn("line 1: process 0 completes :acquire and has invoked nothing", self.refused(text(HOLD[1], HOLD[3])))

    def test_lines_are_accounted_for(self) -> None:
        for given in (text(*HOLD), text(*IN_TIME)):
            self.turned("; a comment\n\n" + given + "{:process :nemesis, :type :info, :f :kill,\n :time 9}\n\n")
            self.assertEqual((self.account.lines, self.account.taken, dict(self.account.skipped)),
                             (11, 6, {"of :nemesis": 2, "blank, comment or bracket": 3}))


class Fields(Turned):
    """Those that stand there twice, and those that may tell runs or objects apart."""

    def test_one_that_stands_there_twice(self) -> None:
        for further in (", :value 2", ", :time 1, :time 2", ", :type :ok"):
            given = text("0 invoke write 1", "0 ok write 1").replace("}", further + "}")
            self.assertRegex(self.refused(given), "line 1: this event has :(value|time|type) twice")
            self.assertIn("twice", self.refused(given, order="times"))

    def test_runs_and_parts_of_a_key(self) -> None:
        for name, what in ((":run", "if it tells runs apart"), (":run-id", "if it tells runs apart"), (":table", "if it is a part of the key")):
            lines = text("0 invoke write 1", "0 ok write 1", "0 invoke read nil", "0 ok read 2").splitlines(True)
            given = "".join(line.replace("}", f", {name} {place // 2}}}") for place, line in enumerate(lines))
            self.assertIn(f"line 3: {name} is 1 here and 0 before: {what}", self.refused(given))
            self.assertIn(f"say --ignore {name[1:]} if it means nothing", self.refused(given, order="times" if ":time" in given else None))
            self.assertEqual(len(self.turned(given.replace(f"{name} 1", f"{name} 0"))), 4)


class Clients(Turned):
    def test_names(self) -> None:
        for name in (":c1", '"n1-4"', "c1"):
            self.assertEqual(self.turned(text(f"{name} invoke write 1", f"{name} ok write 1", ":other info x nil")), ["0 invoke write", "0 ok write"])
            self.assertIn(f"clients are numbered: 0 is {name}", self.notes)
        self.assertEqual(self.account.skipped["of :other"], 1)
        self.assertIn(":c1 completes write and has invoked nothing".replace("write", ":write"), self.refused(text(":c1 ok write 1")))

    def test_names_beside_numbers(self) -> None:
        self.assertEqual(self.turned(text("0 invoke write 1", ":c invoke write 2", "0 ok write 1"))[::2], ["0 invoke write", "0 ok write"])
        self.assertEqual(self.turned(text(":c invoke write 2", "0 invoke write 1", "0 ok write 1"))[1:], ["1 invoke write", "1 ok write"])


class Outcomes(Turned):
    def kinds(self, *events: str, **options: Any) -> List[str]:
        return [event.split(" ")[1] for event in self.turned(text(*events), **options)]

    def test_answers_of_false(self) -> None:
        for name, value, kind in (("acquire", "nil", "fail"), ("cas", "[1,2]", "fail"), ("release", "nil", "info"), ("write", "1", "info"),
                                  ("dequeue", "nil", "fail")):
            events = (f"0 invoke {name} {value}", f"0 ok {name} false")
            self.assertEqual(self.kinds(*events), ["invoke", kind])
            self.assertEqual(self.guesses(), [f"--outcome false={kind}"])
            self.assertEqual(self.kinds(*events, outcomes={"false": "ok"}), ["invoke", "ok"])
            self.assertEqual(self.guesses(), [])
        self.assertEqual(self.kinds("0 invoke write false", "0 ok write false", "0 invoke read nil", "0 ok read false")[1::2], ["ok", "ok"])

    def test_false_that_was_put_into_a_queue(self) -> None:
        self.assertEqual(self.kinds("0 invoke enqueue false", "0 ok enqueue false", "0 invoke dequeue nil", "0 ok dequeue false")[1::2], ["ok", "ok"])
        self.assertEqual(self.guesses(), [])

    def test_an_ok_with_an_error(self) -> None:
        given = text("0 invoke write 1", "0 ok write 1").replace("}\n{", "}\n{:error :timeout, ")
        self.assertEqual(self.turned(given)[1], "0 ok write")
        self.assertEqual(self.guesses(), ["--outcome error=ok"])
        self.assertEqual(self.turned(given, outcomes={"error": "info"})[1], "0 info write")
        self.turned(given.replace(":timeout", "nil"))
        self.assertEqual(self.guesses(), [])

    def test_a_value_of_a_lock_is_told(self) -> None:
        self.turned(text("0 invoke acquire nil", "0 ok acquire 17"))
        self.assertIn(":ok of :acquire with a value, which is left out: 1", self.notes)

    def test_nil_in_a_set(self) -> None:
        made = turn(text("0 invoke add [0,1]", "0 ok add [0,1]", "0 invoke read [0,nil]", "0 ok read [0,#{1,nil}]"))
        self.assertIn(":value [0 #{0 1}]", made.text())
        self.assertEqual(made.names.value(1), "nil")


if __name__ == "__main__":
    unittest.main()
