"""Strikes on the membership of etcd's group. `shrink` removes a member, with its data, and lets it join again as a new member. `grow` lets
one more member join, and removes it again.

The strike repeats a change of the group until it is certain. A member that answers may lag behind the others. So a member is removed by the
number that the group gave it, and a joining member gets the list of members in the answer to its own request.
"""
from __future__ import annotations

import contextlib
import shutil
import time
from typing import TYPE_CHECKING, Any, Callable, Dict, Iterator, List

from ..errors import ServerError
from ..strikes.kind import NEEDS_SPARE, OTHER, PROCESS, Strike, Values

if TYPE_CHECKING:
    from ..cluster import Cluster
    from ..node import Node
    from .etcd import Etcd

TIMEOUT, PAUSE, LAST = 2.0, 0.2, 5.0  # seconds: the timeout of a call, the pause between two calls, and the time for tries at the end
GONE = "member not found"  # the answer of etcd if the member was removed before


@contextlib.contextmanager
def shrunk(cluster: Cluster, node: Node, values: Values) -> Iterator[None]:
    """Removes a member. If the others can't agree now, the node is down, and is removed at the end. There is only one such strike at a
    time: two nodes that wait for each other to come back would wait forever."""
    server: Any = cluster.server
    etcd: Etcd = server
    cluster.kill(node)
    try:
        with contextlib.suppress(OSError, KeyError):
            remove(etcd, node)
        yield
    finally:
        leave(etcd, node, cluster)
        until(lambda: join(etcd, node), cluster)
        cluster.restart(node)


@contextlib.contextmanager
def grown(cluster: Cluster, node: Node, values: Values) -> Iterator[None]:
    """Lets a member join. If the others can't agree now, none joins. They may agree later, so the end of the strike always lets it join
    before it removes it."""
    server: Any = cluster.server
    etcd: Etcd = server
    (spare,) = cluster.spares
    try:
        with contextlib.suppress(OSError, KeyError):
            join(etcd, spare)
            cluster.restart(spare)
        yield
    finally:
        cluster.kill(spare)
        until(lambda: join(etcd, spare), cluster)
        leave(etcd, spare, cluster)


def leave(etcd: Etcd, node: Node, cluster: Cluster) -> None:
    """Takes the node down, since a removed member ends by itself."""
    until(lambda: remove(etcd, node), cluster)
    shutil.rmtree(node.folder / "data", ignore_errors=True)


def remove(etcd: Etcd, node: Node) -> None:
    """Raises unless it is certain that the node has left the group."""
    if node.name not in etcd.numbers:
        etcd.numbers[node.name] = numbers(members(etcd, node))[etcd.peer(node)]
    number = etcd.numbers[node.name]
    try:
        asked(etcd, node, "cluster/member/remove", ID=number)
    except OSError as fault:
        if GONE not in str(fault):
            raise
    etcd.removed.add(number)


def join(etcd: Etcd, node: Node) -> None:
    """Raises unless it is certain that the node is a member, with a new number. An earlier call may have made it a member."""
    found = members(etcd, node)
    if numbers(found).get(etcd.peer(node)) in {None, *etcd.removed}:
        found = asked(etcd, node, "cluster/member/add", peerURLs=[etcd.peer(node)])["members"]
    etcd.numbers[node.name] = numbers(found)[etcd.peer(node)]
    etcd.existing[node.name] = list(numbers(found))


def members(etcd: Etcd, node: Node) -> List[Dict[str, Any]]:
    """Returns the members, as one of the other nodes knows them."""
    found: List[Dict[str, Any]] = asked(etcd, node, "cluster/member/list")["members"]
    return found


def numbers(found: List[Dict[str, Any]]) -> Dict[str, str]:
    """The numbers of members, by the links where others reach them."""
    return {one["peerURLs"][0]: one["ID"] for one in found}


def until(what: Callable[[], object], cluster: Cluster) -> None:
    """Tries until the other members answer. Other strikes may stop them, but end before the run. At the end of a test it tries a little
    longer."""
    end, is_over = time.monotonic() + cluster.server.patience, False
    while True:
        try:
            what()
            return
        except (OSError, KeyError) as fault:
            if time.monotonic() > end:
                raise ServerError(f"a member of etcd could not join the group again: {fault}") from fault
            time.sleep(PAUSE)
            if cluster.stopped.is_set():
                end = min(end, time.monotonic() + LAST) if not is_over else end
                is_over = True


def asked(etcd: Etcd, node: Node, path: str, **body: Any) -> Any:
    """Asks the first of the other nodes that answers."""
    fault: OSError = ConnectionError("there is no other node")
    for other in etcd.nodes:
        if other is not node and other.pid is not None:
            with other.inside():
                try:
                    return etcd.ask(other, path, TIMEOUT, **body)
                except OSError as found:
                    fault = found
                    if GONE in str(found):
                        break
    raise fault


STRIKES = {
    "shrink": Strike("{node} is removed from the group if the others agree, and joins it again as a new member", shrunk, PROCESS, nodes=3,
                     is_single=True),
    "grow": Strike("one more member joins the group if the others agree, and is removed again", grown, OTHER, is_single=True,
                   needs=frozenset([NEEDS_SPARE])),
}
