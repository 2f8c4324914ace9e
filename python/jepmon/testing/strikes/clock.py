"""Strikes on the wall clock of a node."""
from __future__ import annotations

import contextlib
import threading
from typing import TYPE_CHECKING, Dict, Iterator

from .kind import CLOCK, NEEDS_CLOCK, Parameter, Strike, Values

if TYPE_CHECKING:
    from ..cluster import Cluster
    from ..node import Node


@contextlib.contextmanager
def bumped(cluster: Cluster, node: Node, values: Values) -> Iterator[None]:
    clock = cluster.clocks[node.name]
    clock.set_ahead(values["ahead"])
    try:
        yield
    finally:
        clock.set_ahead(0.0)


@contextlib.contextmanager
def strobed(cluster: Cluster, node: Node, values: Values) -> Iterator[None]:
    clock, is_over = cluster.clocks[node.name], threading.Event()

    def run() -> None:
        ahead = 0.0
        while not is_over.wait(values["period"]):
            ahead = values["ahead"] - ahead
            clock.set_ahead(ahead)

    thread = threading.Thread(target=run, name=f"clock of {node.name}")
    thread.start()
    try:
        yield
    finally:
        is_over.set()
        thread.join()
        clock.set_ahead(0.0)


NEEDS = frozenset([NEEDS_CLOCK])
AHEAD = Parameter(0.1, 300.0, -1e9, 1e9)  # seconds
STRIKES: Dict[str, Strike] = {
    "bump": Strike("the wall clock of {node} is {ahead:.3g} s ahead", bumped, CLOCK, {"ahead": AHEAD}, needs=NEEDS),
    "strobe": Strike("the wall clock of {node} jumps by {ahead:.3g} s, to and fro, each {period:.2g} s", strobed, CLOCK,
                     {"ahead": AHEAD, "period": Parameter(0.005, 0.5, 0.001, 60.0)}, needs=NEEDS),
}
