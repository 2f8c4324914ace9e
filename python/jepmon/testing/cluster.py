"""The nodes of a test: they have a folder and ports of their own, and are removed when the test ends."""
from __future__ import annotations

import contextlib
import os
import pathlib
import random
import tempfile
import threading
from types import TracebackType
from typing import Dict, List, Optional, Type

from . import clocks
from .crashes import LogWatch
from .crew import Crew
from .disks import Disk
from .family import adopt
from .guard import Guard
from .links import DIRECT, NAMESPACES, Links, Proxied, Switched
from .node import Node, Ports
from .server import Server
from .undisturbed import undisturbed


class Cluster:
    """The cluster starts with its block. `network` is the sort of links through which others reach the nodes (links.py). `has_disks` says
    whether each node's folder is a disk of its own, which can lose power (disks.py). `has_clocks` says whether each node has a wall clock
    of its own (clocks.py). `has_spare` adds a node that strikes may start."""

    def __init__(self, kind: Type[Server], model: str, plant: str, size: int, logs: pathlib.Path, network: str, patience: float = 0.0,
                 has_disks: bool = False, has_clocks: bool = False, durability: str = "", has_spare: bool = False) -> None:
        self._ended = contextlib.ExitStack()
        self.crew = Crew()
        self.stopped = threading.Event()  # set when no thread should wait for a node any longer
        adopt()  # this process gets the orphans of servers that have ended
        try:
            with undisturbed():
                folder = pathlib.Path(tempfile.mkdtemp(prefix="jepmon-test-"))
                guard = Guard(folder)
                self._ended.callback(guard.end)
            folder.chmod(0o755)  # the user of a node must reach the node's folder in it
            ports = Ports(random.Random(os.urandom(8)))
            self._every: List[Node] = []
            for number in range(size + has_spare):
                name = f"n{number + 1}"
                (folder / name).mkdir()
                self._every.append(Node(number, folder / name, logs / f"{name}.log", {port: ports.free() for port in kind.ports}, guard))
            self.nodes, self.spares = self._every[:size], self._every[size:]
            self.disks: Dict[str, Disk] = {}  # the disks, by the names of nodes
            for node in self.nodes if has_disks else []:
                self.disks[node.name] = Disk(node.folder, folder / f"{node.name}.disk")
                self._ended.callback(self.disks[node.name].end)
            library = clocks.compiled(folder) if has_clocks else None
            self.clocks = {node.name: clocks.Clock(node, library) for node in self.nodes} if library is not None else {}
            self.links: Optional[Links] = None
            if network != DIRECT:
                self.links = Switched(self._every) if network == NAMESPACES else Proxied(self._every, ports)
                self._ended.callback(self.links.end)
            self.server = kind(self.nodes, model, plant)
            self.server.patience = patience or self.server.patience
            self._logs = LogWatch(self._every, self.server.crashes)
            self.server.durability = durability or self.server.durability
        except BaseException:
            self._ended.close()
            raise

    def __enter__(self) -> Cluster:
        try:
            for node in self.nodes:
                with node.inside():
                    self.server.prepare(node)
                self._start(node)
                if self.server.in_turn:
                    self.wait_until_ready(node)
            self.wait_until_all_ready()
            for node in self.nodes if self.clocks else []:
                self.clocks[node.name].test_reached(node)
            with self.clients():
                self.server.begun()
            for disk in self.disks.values():
                disk.sync()
        except BaseException:
            self.end()
            raise
        return self

    def __exit__(
        self, kind: Optional[Type[BaseException]], error: Optional[BaseException], trace: Optional[TracebackType]
    ) -> None:
        self.end()

    def end(self) -> None:
        """Kills all nodes and removes their folders."""
        for node in self._every:
            node.kill()
        self._ended.close()

    def clients(self) -> "contextlib.AbstractContextManager[None]":
        """Moves this thread, for the block, to the place of the clients (their network namespace)."""
        return contextlib.nullcontext() if self.links is None else self.links.clients()

    def _start(self, node: Node) -> None:
        """Starts a node. The words of its command are made at each start, since they may depend on node.starts."""
        node.words = self.server.command(node)
        node.start()
        if self.links is not None:
            self.links.up(node)

    def wait_until_ready(self, node: Node) -> None:
        with node.inside():
            node.wait_until(lambda: self.server.ready(node), self.server.patience, "was not ready", self.stopped)

    def is_ready(self, node: Node) -> bool:
        with node.inside():
            try:
                self.server.ready(node)
            except Exception:  # after any exception the node is not ready
                return False
        return True

    def leader(self) -> Optional[Node]:
        """The node that leads now, if the server names one. Otherwise None."""
        try:
            return self.server.leader()
        except Exception:  # nodes under a fault may not answer
            return None

    @property
    def running(self) -> List[Node]:
        """The nodes, and the additional one if it was started."""
        return self.nodes + [node for node in self.spares if node.pid is not None]

    # --- The actions of strikes ---

    def kill(self, node: Node) -> None:
        node.kill()
        if self.links is not None:
            self.links.down(node)

    def restart(self, node: Node) -> None:
        """Starts a node again. The node is ready some time later, since it may have to wait for other nodes that are cut off."""
        self._start(node)

    def test_alive(self) -> None:
        """Raises a Died if a node has ended by itself, or if its log says that it has crashed."""
        for node in self._every:
            node.test_alive()
        self._logs.look()

    def wait_until_all_ready(self) -> None:
        """Waits until all nodes are ready. The faults have ended by now."""
        for node in self.nodes:
            self.wait_until_ready(node)
