"""When what strikes: by a schedule, or at random from a seed; and what the history notes of it."""
from __future__ import annotations

import contextlib
import itertools
import random
import threading
import time
import unittest
from typing import Any, Dict, Iterator, List, Mapping, Optional, Tuple
from unittest import mock

from jepmon.testing.errors import ServerError
from jepmon.testing.generators import Phases
from jepmon.testing.links import CUT, Effect
from jepmon.testing.server import ALL_STRIKES
from jepmon.testing.strikes import links, told
from jepmon.testing.strikes.kind import OTHER, PROCESS, Parameter, Strike
from jepmon.testing.strikes.known import STRIKES
from jepmon.testing.strikes.nemesis import Nemesis
from jepmon.testing.strikes.plan import Plan, Planned


def plan(text: str, nodes: int = 3, **more: Any) -> Plan:
    return Plan(text, nodes, STRIKES, ALL_STRIKES, **more)


def planned(text: str, nodes: int = 3, seed: int = 1, seconds: float = 60.0) -> List[List[Planned]]:
    return [list(lane.strikes) for lane in plan(text, nodes).lanes(seed, seconds)]


def all_planned(text: str, nodes: int = 3, seed: int = 1, seconds: float = 60.0) -> List[Planned]:
    return [strike for lane in planned(text, nodes, seed, seconds) for strike in lane]


class Plans(unittest.TestCase):
    def test_a_schedule_is_in_order_of_time(self) -> None:
        self.assertEqual([(one.name, one.node, one.begin, one.lasting) for one in all_planned("pause:n2@6,kill:n1@3+0.5")],
                         [("kill", 0, 3.0, 0.5), ("pause", 1, 6.0, 1.0)])

    def test_strikes_of_a_schedule_that_overlap_have_lanes_of_their_own(self) -> None:
        lanes = planned("pause:n1@2+4,pause:n2@3+1,cut:n1@7")
        self.assertEqual([[(one.node, one.begin) for one in lane] for lane in lanes], [[(0, 2.0), (0, 7.0)], [(1, 3.0)]])

    def test_strikes_are_the_same_by_one_seed(self) -> None:
        self.assertEqual(planned("all"), planned("all"))
        self.assertNotEqual(planned("all"), planned("all", seed=2))

    def test_strikes_of_a_minute(self) -> None:
        lanes = planned("all", nodes=5)
        for lane in lanes:
            self.assertTrue(all(one.begin + one.lasting < other.begin for one, other in zip(lane, lane[1:])))
        every = list(itertools.chain(*lanes))
        self.assertEqual({one.name for one in every}, set(ALL_STRIKES))
        pairs = [(one, other) for one, other in itertools.combinations(every, 2)
                 if max(one.begin, other.begin) < min(one.begin + one.lasting, other.begin + other.lasting)]
        self.assertTrue(any(one.begin != other.begin and STRIKES[one.name].lane != STRIKES[other.name].lane for one, other in pairs))
        self.assertTrue(any({one.name, other.name} <= {"kill", "pause"} and one.node != other.node for one, other in pairs))
        self.assertTrue(all(0.1 <= one.lasting <= 10.0 for one in every))
        self.assertGreater(max(one.lasting for one in every), 3.0)
        self.assertLess(min(one.lasting for one in every), 0.5)

    def test_no_strike_that_is_drawn_lasts_most_of_a_short_run(self) -> None:
        for seed in range(10):
            self.assertLessEqual(max(one.lasting for one in all_planned("all", seed=seed, seconds=4.0)), 1.0)

    def test_one_node_is_struck_by_one_thing_at_a_time(self) -> None:
        self.assertEqual(len(planned("all", nodes=1)), 1)
        self.assertEqual([len(planned(text, nodes=1)) for text in ("kill,bump", "kill,cut")], [2, 1])

    def test_more_nodes_are_struck_by_more_at_a_time(self) -> None:
        self.assertEqual([len(planned("all", nodes=nodes)) for nodes in (2, 3, 4, 5)], [2, 2, 4, 4])

    def test_a_kind_by_itself_and_a_node_by_itself(self) -> None:
        self.assertEqual({(one.name, one.node) for one in all_planned("kill:n2")}, {("kill", 1)})

    def test_parameters(self) -> None:
        strikes = all_planned("slow:delay=0.2:jitter=0:lasting=1..2:rest=0.5")
        self.assertEqual({(one.values["delay"], one.values["jitter"]) for one in strikes}, {(0.2, 0.0)})
        self.assertTrue(all(1.0 <= one.lasting <= 2.0 for one in strikes))
        self.assertGreater(len({one.lasting for one in strikes}), 5)
        self.assertEqual([one.values["share"] for one in all_planned("loss:n1:share=0.5@1+2")], [0.5])

    def test_parameters_of_all(self) -> None:
        self.assertEqual({one.lasting for one in all_planned("all:lasting=0.5")}, {0.5})

    def test_one_more_than_all(self) -> None:
        strikes = {**STRIKES, "mine": Strike("{node}", contextlib.nullcontext)}  # type: ignore[arg-type]
        self.assertEqual(Plan("all,mine", 3, strikes, ("kill",)).names, ["kill", "mine"])

    def test_one_node_is_not_cut_off_from_others(self) -> None:
        self.assertEqual(plan("all", nodes=1).names, ["kill", "pause", "cut", "slow", "loss", "reorder", "corrupt"])
        self.assertEqual(plan("all", nodes=1).left_out, {})

    def test_what_is_not_here_is_left_out_of_all_and_refused_by_name(self) -> None:
        def why_not(name: str) -> Optional[str]:
            return "there is no wire" if name in ("loss", "cut") else None

        found = plan("all", 1, why_not=why_not)
        self.assertEqual((found.names, found.left_out), (["kill", "pause", "slow", "reorder", "corrupt"],
                                                         {"cut": "there is no wire", "loss": "there is no wire"}))
        with self.assertRaisesRegex(ServerError, r"^--nemesis loss: there is no wire; there are kill, pause, slow, reorder, corrupt, "):
            plan("kill,loss", 1, why_not=why_not)

    def test_the_leader(self) -> None:
        self.assertTrue(all(one.at_leader for lane in plan("partition:leader", has_leader=True).lanes(1, 60.0) for one in lane.strikes))
        drawn = [one.at_leader for lane in plan("partition", has_leader=True).lanes(1, 600.0) for one in lane.strikes]
        self.assertLess(0.1, sum(drawn) / len(drawn))
        self.assertLess(sum(drawn) / len(drawn), 0.5)

    def test_none(self) -> None:
        self.assertEqual(planned("none"), [])
        self.assertFalse(plan("kill,pause", 1).needs("links"))
        self.assertTrue(plan("kill,slow", 1).needs("links"))

    def test_what_can_not_be_is_said(self) -> None:
        for text, nodes, said in (("kil", 1, "it takes all, none, or of kill"), ("kill:n4", 3, "n1 to n3"), ("", 1, "it takes all"),
                                  ("partition", 1, "no other nodes"), ("kill,pause@3", 1, "each strike has its time"), ("kill:n0", 1, "n1"),
                                  ("ring", 3, "it takes 4 nodes, and there are 3"), ("kill:leader", 3, "does not say which node is its leader"),
                                  ("slow:speed=1", 1, "slow takes delay, jitter, lasting, rest, each a number"),
                                  ("slow:delay=2..1", 1, "delay is from 0 to 60, the least first"), ("loss:share=2", 1, "share is from 0 to 1"),
                                  ("kill:lasting=2@3", 1, r"\+SECONDS is its length"), ("kill:delay=1..", 1, "a number or two"),
                                  ("kill:n1@2+4,pause:n1@3", 1, "both are strikes on the process of n1, and they overlap"),
                                  ("kill@1.2.3", 1, "kill takes a node, such as kill:n1, .* a time, such as"), ("kill@", 1, "a time, such as kill@3"),
                                  ("slow:delay=fast", 1, "slow takes a node, .* a parameter, such as slow:lasting=0.5..2"), ("part:x", 2, "partition takes a")):
            with self.subTest(text), self.assertRaisesRegex(ServerError, said):
                plan(text, nodes)

    def test_a_range_is_drawn_evenly_by_its_logarithm(self) -> None:
        draws = random.Random(1)
        drawn = [Parameter(0.1, 10.0).drawn(draws) for _ in range(1000)]
        self.assertTrue(all(0.1 <= value <= 10.0 for value in drawn))
        self.assertAlmostEqual(sum(value < 1.0 for value in drawn) / 1000, 0.5, delta=0.05)
        self.assertEqual(Parameter(0.0, 0.0).drawn(draws), 0.0)


class Partitions(unittest.TestCase):
    def reached(self, pairs: "links.Pairs", nodes: int) -> Dict[str, List[str]]:
        """The nodes that each node reaches, itself among them, if the strike is on the first."""
        names = [f"n{number + 1}" for number in range(nodes)]
        cut = pairs(names[0], names[1:])
        return {one: [other for other in names if (one, other) not in cut] for one in names}

    def test_halves(self) -> None:
        self.assertEqual(self.reached(links.halves, 3), {"n1": ["n1"], "n2": ["n2", "n3"], "n3": ["n2", "n3"]})
        five = self.reached(links.halves, 5)
        self.assertEqual((five["n1"], five["n3"]), (["n1", "n2"], ["n3", "n4", "n5"]))

    def test_one_way(self) -> None:
        self.assertEqual(self.reached(links.one_way, 3), {"n1": ["n1"], "n2": ["n1", "n2", "n3"], "n3": ["n1", "n2", "n3"]})

    def test_in_a_ring_each_reaches_a_majority_and_no_two_the_same(self) -> None:
        for nodes in (4, 5, 6, 7, 9):
            reached = self.reached(links.ring, nodes)
            self.assertTrue(all(nodes / 2 < len(names) < nodes for names in reached.values()), nodes)
            self.assertEqual(len({tuple(names) for names in reached.values()}), nodes)

    def test_a_bridge(self) -> None:
        self.assertEqual(self.reached(links.bridge, 5), {"n1": ["n1", "n2", "n3", "n4", "n5"], "n2": ["n1", "n2", "n3"], "n3": ["n1", "n2", "n3"],
                                                        "n4": ["n1", "n4", "n5"], "n5": ["n1", "n4", "n5"]})

    def test_effects_that_overlap(self) -> None:
        both = Effect(delay=0.1, loss=0.5).and_(Effect(delay=0.2, loss=0.5, corrupt=0.1))
        self.assertAlmostEqual(both.delay, 0.3)
        self.assertEqual((both.cut, both.loss), (False, 0.75))
        self.assertAlmostEqual(both.corrupt, 0.1)
        self.assertTrue(both.and_(CUT).cut)


class Notes(unittest.TestCase):
    def test_what_is_noted_is_read_again(self) -> None:
        one = told.told("all links of {node} are slow, by {delay:g} s", "slow", "n2", "links", {"delay": 0.05, "jitter": 0.0},
                        ["kill n1", "pause n3"])
        self.assertEqual(one.note(), "all links of n2 are slow, by 0.05 s [slow n2, links, delay=0.05, jitter=0; while kill n1, pause n3]")
        self.assertEqual(told.read(one.note()), one)

    def test_the_least(self) -> None:
        one = told.told("{node} is down, by kill -9", "kill", "n1", "process", {}, [])
        self.assertEqual(one.note(), "n1 is down, by kill -9 [kill n1, process]")
        self.assertEqual(told.read(one.note()), one)

    def test_another_note_is_none(self) -> None:
        self.assertIsNone(told.read("the faults are over"))
        self.assertIsNone(told.read("slow [slow n2, links, delay=x]"))


class Strikes(unittest.TestCase):
    """The nemesis, on strikes that write down when they begin and end."""

    def setUp(self) -> None:
        self.told: List[Tuple[float, str]] = []
        self.nodes = [mock.Mock(number=number) for number in range(4)]
        for number, node in enumerate(self.nodes):
            node.name = f"n{number + 1}"
        self.cluster = mock.Mock(nodes=self.nodes, stopped=threading.Event())
        self.cluster.leader.return_value = self.nodes[2]
        self.cluster.server.patience = 1.0
        self.monitor = mock.Mock(failure=None)
        self.noted: List[str] = []
        self.monitor.fault.side_effect = self.fault

    @contextlib.contextmanager
    def fault(self, text: str) -> Iterator[None]:
        self.noted.append(text)
        yield

    @contextlib.contextmanager
    def during(self, cluster: Any, node: Any, values: Mapping[str, float]) -> Iterator[None]:
        self.told.append((time.monotonic() - self.begun, f"begin {node.name}"))
        try:
            yield
        finally:
            self.told.append((time.monotonic() - self.begun, f"end {node.name}"))

    def run_for(self, text: str, seconds: float, **kinds: Strike) -> Nemesis:
        strikes = {"one": Strike("{node} is struck", self.during, PROCESS), "other": Strike("{node} too", self.during, OTHER), **kinds}
        lanes = Plan(text, 4, strikes, (), has_leader=True).lanes(1, seconds)
        self.begun = time.monotonic()
        nemesis = Nemesis(self.monitor, self.cluster, strikes, lanes, seconds)
        nemesis.run()
        return nemesis

    def test_a_schedule_overlaps(self) -> None:
        nemesis = self.run_for("one:n1@0.2+0.8,one:n2@0.4+0.2,other:n1@0.5+0.2", 3.0)
        self.assertEqual([what for _, what in self.told], ["begin n1", "begin n2", "begin n1", "end n2", "end n1", "end n1"])
        for (at, _), wanted in zip(self.told, (0.2, 0.4, 0.5, 0.6, 0.7, 1.0)):
            self.assertGreaterEqual(at, wanted)
        self.assertEqual(self.noted, ["n1 is struck [one n1, process]", "n2 is struck [one n2, process; while one n1]",
                                      "n1 too [other n1, other; while one n1, one n2]"])
        self.assertEqual(dict(nemesis.struck), {"one": 2, "other": 1})

    def test_the_leader_is_struck(self) -> None:
        self.run_for("one:leader@0.1+0.1", 2.0)
        self.assertEqual(self.noted, ["n3 is struck [one n3, process]"])

    def struck_nodes(self, text: str) -> "set[str]":
        """Two lanes of strikes on processes: no node is struck by both at once."""
        self.run_for(text, 2.0)
        going_on: List[str] = []
        for _, what in sorted(self.told):
            word, node = what.split()
            (going_on.append if word == "begin" else going_on.remove)(node)
            self.assertEqual(len(going_on), len(set(going_on)))
        self.assertEqual(going_on, [])
        return {what.split()[1] for _, what in self.told}

    def test_no_process_is_struck_twice_at_once(self) -> None:
        self.assertGreater(len(self.struck_nodes("one:lasting=0.05..0.2:rest=0.01..0.02")), 1)

    def test_a_node_that_is_named_is_the_only_one(self) -> None:
        self.assertEqual(self.struck_nodes("one:n2:lasting=0.05..0.2:rest=0.01..0.02"), {"n2"})

    def test_a_single_strike_is_one_at_a_time(self) -> None:
        self.run_for("single:lasting=0.05..0.2:rest=0.01..0.02", 2.0, single=Strike("{node}", self.during, PROCESS, is_single=True))
        self.assertGreater(len(self.told), 4)
        for place, (_, what) in enumerate(sorted(self.told)):
            self.assertTrue(what.startswith("end" if place % 2 else "begin"))

    def test_a_strike_goes_on_until_the_end_of_the_run_at_most(self) -> None:
        self.run_for("other:n1@0.1+60", 2.0)
        self.assertLess(self.told[-1][0], 30.0)
        self.assertEqual(self.told[-1][1], "end n1")

    def test_a_fault_of_one_ends_all(self) -> None:
        def broken(cluster: Any, node: Any, values: Any) -> Any:
            raise ServerError("it can't be struck")

        with self.assertRaisesRegex(ServerError, "it can't be struck"):
            self.run_for("other:n1@0.1+60,broken:n2@0.2+1", 60.0, broken=Strike("{node}", broken))
        self.assertEqual([what for _, what in self.told], ["begin n1", "end n1"])

    def test_a_node_that_dies_by_itself_ends_all(self) -> None:
        self.cluster.test_alive.side_effect = ServerError("n1 has died by itself")
        with self.assertRaisesRegex(ServerError, "died by itself"):
            self.run_for("other:n1@0.1+60", 60.0)


class PhasesOfARun(unittest.TestCase):
    def test_all_clients_are_in_one_phase(self) -> None:
        one, other = Phases(7), Phases(7)
        times = [number / 3 for number in range(60)]
        self.assertEqual([one.at(time) for time in times], [other.at(time) for time in times])
        self.assertGreater(len(set(map(other.at, times[-1:] + [200.0, 300.0]))), 1)

    def test_phases_follow_one_another(self) -> None:
        phases, draws = Phases(3), random.Random(1)
        times = sorted(draws.uniform(0, 100) for _ in range(200))
        ends = [phase.end for phase, _ in itertools.groupby(map(phases.at, times))]
        self.assertEqual(ends, sorted(set(ends)))
        self.assertTrue(all(end > time for end, time in zip(ends, times[:1])))


if __name__ == "__main__":
    unittest.main()
