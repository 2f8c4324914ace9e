"""Strikes on the processes of a node."""
from __future__ import annotations

import contextlib
from typing import TYPE_CHECKING, Dict, Iterator

from .kind import PROCESS, Strike, Values

if TYPE_CHECKING:
    from ..cluster import Cluster
    from ..node import Node


@contextlib.contextmanager
def killed(cluster: Cluster, node: Node, values: Values) -> Iterator[None]:
    """Kills the node. At the end of the strike it starts again with its kept data."""
    cluster.kill(node)
    try:
        yield
    finally:
        cluster.restart(node)


@contextlib.contextmanager
def paused(cluster: Cluster, node: Node, values: Values) -> Iterator[None]:
    node.pause()
    try:
        yield
    finally:
        node.go_on()


STRIKES: Dict[str, Strike] = {
    "kill": Strike("{node} is down, by kill -9", killed, PROCESS),
    "pause": Strike("{node} is paused by SIGSTOP", paused, PROCESS),
}
