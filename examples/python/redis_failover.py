"""Redis with a fail-over that does not wait for the replica: where the primary refuses a connection, a client makes the replica the primary,
as a sentinel would. A write that was acknowledged and not yet replicated is lost, and jepmon-test finds it:

    jepmon-test examples/python/redis_failover.py --time 120
"""
from __future__ import annotations

import threading
from typing import Any, List, Optional

from jepmon.testing import Client, Node
from jepmon.testing.servers.redis import Redis, integer
from jepmon.testing.wire.resp import Redis as Connection
from jepmon.testing.wire.resp import RedisError


class Roles:
    """Which node is the primary."""

    def __init__(self) -> None:
        self.primary = 0
        self.lock = threading.Lock()


class FailingOver(Client):
    certain = (ConnectionRefusedError, RedisError)

    def __init__(self, nodes: List[Node], roles: Roles) -> None:
        self.roles, self.connections = roles, [Connection(node.at) for node in nodes]

    def call(self, *words: Any) -> Any:
        asked = self.roles.primary
        try:
            return self.connections[asked].call(*words)
        except ConnectionRefusedError:
            with self.roles.lock:
                if self.roles.primary == asked:
                    self.connections[1 - asked].call("REPLICAOF", "NO", "ONE")
                    self.roles.primary = 1 - asked
            raise

    def read(self, key: int) -> Optional[int]:
        return integer(self.call("GET", f"r{key}"))

    def write(self, key: int, value: int) -> None:
        self.call("SET", f"r{key}", value)

    def close(self) -> None:
        for connection in self.connections:
            connection.close()


class RedisFailover(Redis):
    objects = {"register": FailingOver}
    bears = {"register": ("kill", "partition", "slow")}
    plants = {}
    sizes = range(2, 3)

    def __init__(self, *words: Any) -> None:
        super().__init__(*words)
        self.roles = Roles()

    def ready(self, node: Node) -> None:
        """A node that comes back follows the primary of now."""
        is_primary = node.number == self.roles.primary
        primary = self.nodes[self.roles.primary]
        connection = Connection(node.listens_at)
        try:
            connection.call("REPLICAOF", *(("NO", "ONE") if is_primary else (primary.address, primary.ports["client"])))
            if (b"role:master" if is_primary else b"master_link_status:up") not in connection.call("INFO", "replication"):
                raise RedisError("it has no link to its primary yet")
        finally:
            connection.close()

    def client(self, number: int) -> Client:
        return FailingOver(list(self.nodes), self.roles)
