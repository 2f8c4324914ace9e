"""Strikes on the power of a node: its processes are killed, and unsynced data is lost or torn."""
from __future__ import annotations

import contextlib
from typing import TYPE_CHECKING, Callable, Dict, Iterator

from .kind import NEEDS_DISK, PROCESS, During, Parameter, Strike, Values

if TYPE_CHECKING:
    from ..cluster import Cluster
    from ..disks import Disk
    from ..node import Node


def without_power(how: Callable[[Disk, Values], str]) -> During:
    @contextlib.contextmanager
    def during(cluster: Cluster, node: Node, values: Values) -> Iterator[None]:
        cluster.kill(node)
        try:
            node.write_log(f"power: {how(cluster.disks[node.name], values)} (files, bytes in blocks of 4096)")
            yield
        finally:
            cluster.restart(node)

    return during


NEEDS = frozenset([NEEDS_DISK])
STRIKES: Dict[str, Strike] = {
    "power": Strike("{node} is without power: what it had not synced is lost", without_power(lambda disk, values: disk.lose()), PROCESS,
                    needs=NEEDS),
    "tear": Strike("{node} is without power: some sectors of what it had not synced are lost",
                   without_power(lambda disk, values: disk.tear(int(values["coins"]))), PROCESS, {"coins": Parameter(1, 1_000_000)}, needs=NEEDS),
}
