"""Strikes on a client of a node."""
from __future__ import annotations

import contextlib
from typing import TYPE_CHECKING, Dict, Iterator

from .kind import NEEDS_CREW, OTHER, Parameter, Strike, Values

if TYPE_CHECKING:
    from ..cluster import Cluster
    from ..node import Node


@contextlib.contextmanager
def paused(cluster: Cluster, node: Node, values: Values) -> Iterator[None]:
    number = chosen(cluster, node, values["which"])
    cluster.crew.pause(number)
    try:
        yield
    finally:
        cluster.crew.go_on(number)


@contextlib.contextmanager
def crashed(cluster: Cluster, node: Node, values: Values) -> Iterator[None]:
    cluster.crew.crash(chosen(cluster, node, values["which"]))
    yield


def chosen(cluster: Cluster, node: Node, which: float) -> int:
    """The number of a client of the node; of any node, if it has none."""
    every = range(cluster.crew.size)
    numbers = [number for number in every if cluster.server.node_of(number) is node] or list(every)
    return numbers[min(int(which * len(numbers)), len(numbers) - 1)]


NEEDS = frozenset([NEEDS_CREW])
WHICH = {"which": Parameter(0.0, 1.0, 0.0, 1.0)}  # 0 is the first one of the node's clients, 1 the last one
STRIKES: Dict[str, Strike] = {
    "client-pause": Strike("a client of {node} is paused", paused, OTHER, WHICH, needs=NEEDS),
    "client-crash": Strike("a client of {node} crashes before it learns the result of its operation", crashed, OTHER, WHICH, needs=NEEDS),
}
