"""The test's side of the links: the effects on the packets of each way. A process carries the packets: proxy.py on the loopback, or
switch.py between network namespaces."""
from __future__ import annotations

import contextlib
import json
import subprocess
import threading
from typing import TYPE_CHECKING, Dict, Iterable, List, NamedTuple, Sequence, Tuple

from .errors import ServerError
from .guard import environment, module
from .places import Place, why_not
from .proxy import CLIENTS

if TYPE_CHECKING:
    from .node import Node, Ports

__all__ = ["AUTO", "CLIENTS", "CUT", "DIRECT", "Effect", "Links", "NAMESPACES", "NETWORKS", "PROXY", "Pair", "Proxied", "Switched", "both_ways",
           "network"]

AUTO, NAMESPACES, PROXY, DIRECT = "auto", "namespaces", "proxy", "direct"
NETWORKS = (AUTO, NAMESPACES, PROXY)  # the values of --network
NET, CLIENTS_HOST = "10.0.0.", 200


def network(asked: str, needs_links: bool, needs_addresses: bool = False) -> str:
    """The way to reach the nodes: DIRECT if nothing strikes their links, otherwise namespaces if this machine allows them. Nodes that need
    addresses of their own always use namespaces."""
    if needs_addresses and asked == PROXY:
        raise ServerError(f"--network {PROXY}: the nodes of this server find one another by their addresses: several nodes need {NAMESPACES}")
    if asked == AUTO and not needs_addresses:
        return DIRECT if not needs_links else PROXY if why_not() else NAMESPACES
    fault = why_not() if asked != PROXY else None
    if fault:
        others = "one node needs none" if needs_addresses else f"{PROXY} needs no rights"
        raise ServerError(f"--network {NAMESPACES}: namespaces are not possible here: {fault}; they need root, and {others}")
    return PROXY if asked == PROXY else NAMESPACES


Pair = Tuple[str, str]  # a way: the sender and the receiver


class Effect(NamedTuple):
    """The effects on the packets of a way. Shares are of packets, and seconds are of each packet."""

    cut: bool = False
    delay: float = 0.0
    jitter: float = 0.0  # the greatest addition to the delay
    loss: float = 0.0
    reorder: float = 0.0
    corrupt: float = 0.0

    def and_(self, other: Effect) -> Effect:
        """Returns both effects together."""
        loss, reorder, corrupt = (1 - (1 - one) * (1 - two) for one, two in zip(self[3:], other[3:]))
        return Effect(self.cut or other.cut, self.delay + other.delay, self.jitter + other.jitter, loss, reorder, corrupt)


CUT = Effect(cut=True)


def both_ways(ones: Iterable[str], others: Sequence[str]) -> List[Pair]:
    return [pair for one in ones for other in others for pair in ((one, other), (other, one))]


class Links:
    """The links through which others reach each node. Several effects may be active at once, and a way has all effects that are active for
    it."""

    def __init__(self, name: str, ends: Sequence[object], files: Sequence[int] = ()) -> None:
        self._lock = threading.Lock()
        self._held: Dict[int, Tuple[List[Pair], Effect]] = {}
        self._count = 0
        self._process = subprocess.Popen([*module(name), json.dumps(ends)], stdin=subprocess.PIPE, stdout=subprocess.PIPE,
                                         start_new_session=True, env=environment(), pass_fds=files)

    def up(self, node: Node) -> None:
        """Notes that the node has a process, which will listen."""

    def down(self, node: Node) -> None:
        """Notes that nothing listens at the node any more."""

    def clients(self) -> "contextlib.AbstractContextManager[None]":
        """Moves this thread, for the block, to the place of the clients."""
        return contextlib.nullcontext()

    def hold(self, pairs: List[Pair], effect: Effect) -> int:
        """Applies the effect to these ways, until its number is released."""
        with self._lock:
            self._count += 1
            self._held[self._count] = pairs, effect
            self._set(pairs)
            return self._count

    def release(self, number: int) -> None:
        with self._lock:
            self._set(self._held.pop(number)[0])

    def _set(self, pairs: List[Pair]) -> None:
        for pair in pairs:
            effect = Effect()
            for held, one in self._held.values():
                if pair in held:
                    effect = effect.and_(one)
            self._tell(f"way {' '.join(pair)} {' '.join(f'{float(value):.6g}' for value in effect)}")

    def tell(self, line: str) -> None:
        with self._lock:
            self._tell(line)

    def _tell(self, line: str) -> None:
        """Sends a line to the process of the links. The caller has the lock."""
        assert self._process.stdin is not None and self._process.stdout is not None
        try:
            self._process.stdin.write(line.encode() + b"\n")
            self._process.stdin.flush()
            reply = self._process.stdout.readline().decode().strip()
        except (OSError, ValueError) as fault:
            raise ServerError(f"the process of the links has ended: {fault}") from fault
        if reply != "ok":
            raise ServerError(f"the process of the links can't do {line!r}: {reply or 'it has ended'}")

    def end(self) -> None:
        self._process.kill()
        self._process.wait()
        for pipe in (self._process.stdin, self._process.stdout):
            if pipe is not None:
                try:
                    pipe.close()
                except OSError:
                    pass


class Proxied(Links):
    """Links by a proxy on the loopback."""

    def __init__(self, nodes: Sequence[Node], ports: Ports) -> None:
        ends = []
        for node in nodes:
            node.reach = {name: ports.free() for name in node.ports}
            ends += [[node.reach[name], node.ports[name], node.name] for name in node.ports]
        super().__init__("proxy", ends)

    def up(self, node: Node) -> None:
        """Registers the node's process: the connections that it makes are the node's, and others reach it as soon as it listens."""
        if node.pid is not None:
            self.tell(f"node {node.name} {node.pid}")
        self.tell(f"up {node.name}")

    def down(self, node: Node) -> None:
        """Makes connections to the node be refused, which says more than a timeout."""
        self.tell(f"down {node.name}")


class Switched(Links):
    """Links between network namespaces: each node has one, and the clients have one."""

    def __init__(self, nodes: Sequence[Node]) -> None:
        with contextlib.ExitStack() as made, contextlib.ExitStack() as handed_over:

            def place(host: int) -> Place:
                one = placed(f"{NET}{host}")
                made.callback(one.end)
                handed_over.callback(one.leave_packets)
                return one

            self._clients = place(CLIENTS_HOST)
            ends = [(CLIENTS, self._clients.address, self._clients.packets)]
            for node in nodes:
                node.place = place(node.number + 1)
                node.address = node.place.address
                ends.append((node.name, node.address, node.place.packets))
            super().__init__("switch", ends, [packets for _, _, packets in ends])
            self._places = made.pop_all()

    def clients(self) -> "contextlib.AbstractContextManager[None]":
        return self._clients.inside()

    def end(self) -> None:
        super().end()
        self._places.close()


def placed(address: str) -> Place:
    try:
        return Place(address)
    except OSError as fault:
        raise ServerError(f"a network namespace can't be made: {fault.filename}: {fault.strerror}") from fault
