"""Redis: a primary, and its replicas. Clients use the primary, which writes each command to its file and syncs the file before it answers
(`appendonly yes`, `appendfsync always`). --durability has looser settings. A loss of power shows the difference.

The meaning of errors: with a refused connection nothing was sent, and an error as an answer means that the command was not done (`LOADING`,
`READONLY`, `MISCONF`). Both are a :fail. A timeout, or a connection that was cut, is an :info.
"""
from __future__ import annotations

import uuid
from typing import Dict, List, Optional, Sequence, Type

from ...live.outcome_rules import Exceptions
from ..node import At, Node
from ..server import ALL_STRIKES, Client, Leases, Plant, Server
from ..wire.resp import Redis as Connection
from ..wire.resp import RedisError

RELEASE = "if redis.call('get', KEYS[1]) == ARGV[1] then return redis.call('del', KEYS[1]) else return 0 end"


class RedisClient(Client):
    certain: Exceptions = (ConnectionRefusedError, RedisError)

    def __init__(self, at: At, read_at: At) -> None:
        self.redis, self.reads = Connection(at), Connection(read_at)

    def close(self) -> None:
        self.redis.close()
        self.reads.close()


class Register(RedisClient):
    def read(self, key: int) -> Optional[int]:
        return integer(self.reads.call("GET", f"r{key}"))

    def write(self, key: int, value: int) -> None:
        self.redis.call("SET", f"r{key}", value)


class Queue(RedisClient):
    def enqueue(self, key: int, value: int) -> None:
        self.redis.call("LPUSH", f"q{key}", value)

    def dequeue(self, key: int) -> Optional[int]:
        return integer(self.redis.call("RPOP", f"q{key}"))


class Set(RedisClient):
    def add(self, key: int, value: int) -> None:
        self.redis.call("SADD", f"s{key}", value)

    def read(self, key: int) -> List[int]:
        return [int(member) for member in self.reads.call("SMEMBERS", f"s{key}")]


class Lock(RedisClient):
    """A lock by SET NX PX. A release is never a :fail: an unreleased lock disappears later, when its lease runs out. If the lease has run
    out before, the release is still an ok: if somebody has acquired the lock meanwhile, that acquire was wrong, and not this release."""

    certain: Exceptions = ()
    unsure: Exceptions = (OSError, RedisError)
    lease = 60_000  # milliseconds: longer than any delay while the lock is held

    def __init__(self, at: At, read_at: At) -> None:
        super().__init__(at, read_at)
        self.token, self.leases = "", Leases()

    def acquire(self, key: int) -> bool:
        self.leases.pay(self.give_back, self.unsure)
        self.token = uuid.uuid4().hex
        try:
            return self.redis.call("SET", f"l{key}", self.token, "NX", "PX", self.lease) is not None
        except (ConnectionRefusedError, RedisError):
            return False
        except OSError:
            self.leases.owe(key, self.token)
            raise

    def release(self, key: int) -> bool:
        try:
            self.give_back(key, self.token)
        except self.unsure:
            self.leases.owe(key, self.token)
            raise
        return True

    def give_back(self, key: int, token: str) -> None:
        self.redis.call("EVAL", RELEASE, 1, f"l{key}", token)


class ShortLock(Lock):
    lease, work = 20, 0.04


CLIENTS: Dict[str, Type[RedisClient]] = {"register": Register, "mutex": Lock, "fifo-queue": Queue, "set": Set}


class Redis(Server):
    programs = {"redis-server": "redis-server"}
    objects = {**CLIENTS}
    # After a tear it may not start again ("Bad file format"): the first sector of its last command is lost, and the second one is kept.
    bears = {model: (*ALL_STRIKES, "power") for model in CLIENTS}
    size, sizes, in_turn = 2, range(1, 6), True
    durabilities = {"always": "each command is synced before it is answered", "everysec": "the file is synced each second (the default)",
                    "no": "the file is never synced"}
    plants = {
        "replica": Plant("reads at a replica, which may be some writes behind", "register", "partition"),
        "forgetful": Plant("the server keeps nothing on its disk", "register", "kill:n1", 1),
        "early": Plant("a queue acknowledges what it has not kept", "fifo-queue", "kill:n1", 1),
        "members": Plant("members are read at a replica, which may be some writes behind", "set", "partition"),
        "lease": Plant("the lease is shorter than the work", "mutex", nodes=1),
    }

    @classmethod
    def version(cls) -> Sequence[str]:
        return ("redis-server", "--version")

    def command(self, node: Node) -> List[str]:
        keeps = "no" if self.plant in ("forgetful", "early") else "yes"
        words = ["redis-server", "--port", str(node.ports["client"]), "--bind", node.address, "--dir", str(node.folder), "--save", "",
                 "--protected-mode", "no", "--appendonly", keeps, "--appendfsync", self.durability, "--repl-diskless-sync-delay", "0",
                 "--repl-timeout", "5"]
        return words + (["--replicaof", *map(str, self.nodes[0].at)] if node.number else [])

    def ready(self, node: Node) -> None:
        """Raises until the node answers and, if it is a replica, has the data of its primary."""
        connection = Connection(node.listens_at)
        try:
            wanted = b"master_link_status:up" if node.number else b"role:master"
            if wanted not in connection.call("INFO", "replication"):
                raise RedisError("it has no link to its primary")
        finally:
            connection.close()

    def client(self, number: int) -> Client:
        kind = CLIENTS[self.model]
        if self.plant == "lease":
            kind = ShortLock
        read_at = self.nodes[1 + number % (len(self.nodes) - 1)] if self.plant in ("replica", "members") else self.nodes[0]
        return kind(self.nodes[0].at, read_at.at)

    def reader(self, node: Node) -> Optional[Client]:
        is_own = self.objects[self.model] is CLIENTS.get(self.model)  # a subclass with another client has its own reader
        return CLIENTS[self.model](node.at, node.at) if is_own else None

    def node_of(self, number: int) -> Node:
        return self.nodes[0]


def integer(answer: Optional[bytes]) -> Optional[int]:
    return None if answer is None else int(answer)
