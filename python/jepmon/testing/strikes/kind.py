"""The type of a strike. A server's file may have strikes of its own:

    @contextlib.contextmanager
    def compacting(cluster, node, values):
        compact(node.at, values["share"])     # the fault begins
        yield                                 # it lasts
                                              # the code that ends it is here
    class Mine(Server):
        strikes = {"compact": Strike("{node} compacts {share:g} of its data", compacting, parameters={"share": Parameter(0.1, 1.0)})}
"""
from __future__ import annotations

import math
import random
from typing import TYPE_CHECKING, Callable, ContextManager, FrozenSet, Mapping, NamedTuple

if TYPE_CHECKING:
    from ..cluster import Cluster
    from ..node import Node

PROCESS, LINKS, CLOCK, OTHER = "process", "links", "clock", "other"  # lanes
ALONE = frozenset([PROCESS, CLOCK])  # in these lanes a node has at most one strike at a time
NEEDS_LINKS, NEEDS_PACKETS, NEEDS_DISK, NEEDS_CLOCK, NEEDS_CREW, NEEDS_SPARE = "links", "packets", "disk", "clock", "crew", "spare"

Values = Mapping[str, float]  # the values of the parameters, by name
During = Callable[["Cluster", "Node", Values], ContextManager[None]]


class Parameter(NamedTuple):
    """A parameter of a strike: a number between these two limits, drawn for each strike. If `least` is positive, the logarithm of the
    number is drawn evenly, so small numbers are as frequent as great ones."""

    least: float
    most: float
    lowest: float = 0.0  # the least value that the command line may set
    highest: float = 1_000_000.0

    def drawn(self, draws: random.Random) -> float:
        if self.least > 0:
            return math.exp(draws.uniform(math.log(self.least), math.log(self.most)))
        return draws.uniform(self.least, self.most)


class Strike(NamedTuple):
    """A kind of strike. `text` describes it for the notes in the history, with {node} and the parameters by their names. `during` gives a
    context: the fault begins when the context is entered, and ends when it is left, for any reason."""

    text: str
    during: During
    lane: str = OTHER  # strikes of different lanes, or on different nodes, may overlap
    parameters: Mapping[str, Parameter] = {}
    nodes: int = 1  # the least number of nodes that it needs
    is_single: bool = False  # only one such strike at a time, on all nodes together
    needs: FrozenSet[str] = frozenset()  # NEEDS_..: the needs that the machine, or the test, must meet
