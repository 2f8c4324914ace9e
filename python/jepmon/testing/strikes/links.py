"""Strikes on the links between nodes, and between clients and nodes. A strike has an effect on some ways. A way counts the strikes on it,
so that strikes may overlap: it is open again when no strike is left."""
from __future__ import annotations

import contextlib
from typing import TYPE_CHECKING, Callable, Dict, FrozenSet, Iterator, List, Sequence

from ..links import CLIENTS, CUT, Effect, Pair, both_ways
from .kind import LINKS, NEEDS_LINKS, NEEDS_PACKETS, During, Parameter, Strike, Values

if TYPE_CHECKING:
    from ..cluster import Cluster
    from ..node import Node

Pairs = Callable[[str, List[str]], List[Pair]]  # a function of the node's name and of the other nodes' names, in the order after it


def struck(pairs: Pairs, effect: Callable[[Values], Effect]) -> During:
    """A strike that has this effect on these ways."""

    @contextlib.contextmanager
    def during(cluster: Cluster, node: Node, values: Values) -> Iterator[None]:
        assert cluster.links is not None, "a strike on links, but the cluster has no links"
        names = [one.name for one in cluster.running]
        others = names[node.number + 1:] + names[:node.number]
        held = cluster.links.hold(pairs(node.name, others), effect(values))
        try:
            yield
        finally:
            cluster.links.release(held)

    return during


def cut(pairs: Pairs) -> During:
    return struck(pairs, lambda values: CUT)


# --- The ways of each strike ---


def to_clients(node: str, others: Sequence[str]) -> List[Pair]:
    return both_ways([node], [CLIENTS])


def to_others(node: str, others: Sequence[str]) -> List[Pair]:
    return both_ways([node], others)


def to_all(node: str, others: Sequence[str]) -> List[Pair]:
    return both_ways([node], [CLIENTS, *others])


def halves(node: str, others: Sequence[str]) -> List[Pair]:
    """Two groups: the node and the nodes after it, which are less than half of all; and the others, which are a majority."""
    more = len(others) // 2 - 1  # without the node
    return both_ways([node, *others[:more]], others[more:])


def one_way(node: str, others: Sequence[str]) -> List[Pair]:
    return [(node, other) for other in others]


def ring(node: str, others: Sequence[str]) -> List[Pair]:
    """Each node reaches its neighbours in a ring. With itself these are a majority, and each node has another majority."""
    names = [node, *others]
    count, reach = len(names), (len(names) // 2 + 1) // 2
    return [(names[one], names[other]) for one in range(count) for other in range(count)
            if min((other - one) % count, (one - other) % count) > reach]


def bridge(node: str, others: Sequence[str]) -> List[Pair]:
    """Two halves of the other nodes. Only this node reaches both."""
    half = len(others) // 2
    return both_ways(others[:half], others[half:])


def packets(text: str, name: str, parameter: Parameter, effect: Callable[[Values], Effect]) -> Strike:
    return Strike(text, struck(to_all, effect), LINKS, {name: parameter}, needs=frozenset([NEEDS_LINKS, NEEDS_PACKETS]))


NEEDS: FrozenSet[str] = frozenset([NEEDS_LINKS])
SHARE = Parameter(0.02, 0.3, 0.0, 1.0)  # a share of packets
STRIKES: Dict[str, Strike] = {
    "cut": Strike("clients are cut off from {node}", cut(to_clients), LINKS, needs=NEEDS),
    "partition": Strike("{node} is cut off from the other nodes", cut(to_others), LINKS, nodes=2, needs=NEEDS),
    "slow": Strike("all links of {node} are slow, by {delay:.3g} s and up to {jitter:.3g} s more",
                   struck(to_all, lambda values: Effect(delay=values["delay"], jitter=values["jitter"])), LINKS,
                   {"delay": Parameter(0.01, 0.3, 0.0, 60.0), "jitter": Parameter(0.0, 0.1, 0.0, 60.0)}, needs=NEEDS),
    "halves": Strike("{node}, in a minority, and a majority are cut off from each other", cut(halves), LINKS, nodes=3, needs=NEEDS),
    "oneway": Strike("what {node} sends to the other nodes is lost, and what they send to it comes", cut(one_way), LINKS, nodes=2, needs=NEEDS),
    "ring": Strike("each node reaches a majority, no two nodes the same one, in a ring from {node} on", cut(ring), LINKS, nodes=4, needs=NEEDS),
    "bridge": Strike("two halves are cut off from each other, and {node} alone reaches both", cut(bridge), LINKS, nodes=3, needs=NEEDS),
    "loss": packets("{share:.2g} of the packets of {node} are lost", "share", SHARE, lambda values: Effect(loss=values["share"])),
    "reorder": packets("{share:.2g} of the packets of {node} come after later ones", "share", SHARE,
                       lambda values: Effect(reorder=values["share"])),
    "corrupt": packets("{share:.2g} of the packets of {node} have a bit that was flipped", "share", SHARE,
                       lambda values: Effect(corrupt=values["share"])),
}
