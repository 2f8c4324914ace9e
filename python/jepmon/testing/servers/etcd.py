"""etcd: three members. Each client uses one of them, over HTTP, through the JSON gateway of version 3.

The meaning of errors: with a refused connection nothing was sent, which is a :fail. Everything else except an answer, such as a timeout or
a status other than 200, is an :info. A member that says `request timed out`, `leader changed` or `no leader` may have passed on the request
before.
"""
from __future__ import annotations

import base64
import contextlib
import http.client
import json
import uuid
from typing import Any, Dict, List, Optional, Sequence, Set, Type, Union

from ...live.outcome_rules import Exceptions
from ..node import At, Node
from ..server import Client, Leases, Plant, Server
from . import etcd_members

TIMEOUT, LEADER_TIMEOUT = 1.0, 0.3  # seconds
HEARTBEAT, ELECTION = 100, 1000  # milliseconds
# A joining member ends if the member that it asks first does not know of it yet. So it tries until it has joined, and has a log.
JOIN = 'while :; do "$0" "$@"; status=$?; [ -d data/member/wal ] && exit $status; sleep 0.2; done'


class NoAnswer(OSError):
    """The member did not confirm the operation."""


class EtcdClient(Client):
    serializable = False  # if set, a read asks only the client's own member

    def __init__(self, at: At) -> None:
        self.at = at
        self.connection: Optional[http.client.HTTPConnection] = None

    def call(self, path: str, timeout: float = TIMEOUT, **body: Any) -> Any:
        try:
            if self.connection is None:
                self.connection = http.client.HTTPConnection(*self.at, timeout=timeout)
                self.connection.connect()  # a separate step: if it fails, nothing was sent
            self.connection.request("POST", f"/v3/{path}", json.dumps(body))
            answer = self.connection.getresponse()
            text = answer.read()
            if answer.status == 200:
                return json.loads(text)
        except (OSError, http.client.HTTPException, ValueError) as fault:
            self.close()
            if isinstance(fault, OSError):
                raise
            raise NoAnswer(str(fault)) from fault
        raise NoAnswer(f"status {answer.status}: {text[:200]!r}")

    def get(self, name: str) -> Optional[str]:
        found = self.call("kv/range", key=encoded(name), serializable=self.serializable).get("kvs")
        return decoded(found[0]["value"]) if found else None

    def transaction(self, compare: Dict[str, Any], success: Dict[str, Any]) -> bool:
        """Carries the changes out if all comparisons hold. Returns whether they held."""
        return bool(self.call("kv/txn", compare=[compare], success=[success]).get("succeeded", False))

    def close(self) -> None:
        if self.connection is not None:
            self.connection.close()
            self.connection = None


class Register(EtcdClient):
    def read(self, key: int) -> Optional[int]:
        value = self.get(f"r{key}")
        return None if value is None else int(value)

    def write(self, key: int, value: int) -> None:
        self.call("kv/put", key=encoded(f"r{key}"), value=encoded(value))

    def cas(self, key: int, old: int, new: int) -> bool:
        return self.transaction(value_is(f"r{key}", old), put(f"r{key}", new))


class SerializableRegister(Register):
    serializable = True


class Lock(EtcdClient):
    """A key that its holder creates if it does not exist, with a lease, so that it is removed if the holder ends. A release is never a
    :fail, since the lease removes an unreleased key later. If the key has disappeared before its release, the acquire of another client may
    have been wrong, but not this release."""

    certain: Exceptions = ()
    seconds = 60  # the length of the lease: longer than any delay while the lock is held

    def __init__(self, at: At) -> None:
        super().__init__(at)
        self.token, self.lease, self.leases = "", 0, Leases()

    def acquire(self, key: int) -> bool:
        self.leases.pay(self.give_back, (OSError,))
        self.token = uuid.uuid4().hex
        try:
            self.lease = self.call("lease/grant", TTL=self.seconds)["ID"]
        except OSError:
            return False  # no request about the lock was sent yet
        missing = {"key": encoded(f"l{key}"), "target": "CREATE", "result": "EQUAL", "create_revision": 0}
        try:
            if self.transaction(missing, put(f"l{key}", self.token, lease=self.lease)):
                return True
        except ConnectionRefusedError:
            return False
        except OSError:
            self.leases.owe(key, self.token)
            raise
        try:
            self.call("lease/revoke", ID=self.lease)  # somebody else holds the lock
        except OSError:
            pass  # the lease ends by itself
        return False

    def release(self, key: int) -> bool:
        try:
            self.give_back(key, self.token)
        except OSError:
            self.leases.owe(key, self.token)
            raise
        return True

    def give_back(self, key: int, token: str) -> None:
        self.transaction(value_is(f"l{key}", token), {"requestDeleteRange": {"key": encoded(f"l{key}")}})


class ShortLock(Lock):
    seconds, work = 1, 4.0


CLIENTS: Dict[str, Type[EtcdClient]] = {"cas-register": Register, "register": Register, "mutex": Lock}
PLANTED: Dict[str, Type[EtcdClient]] = {"serializable": SerializableRegister, "lease": ShortLock}


class Etcd(Server):
    programs = {"etcd": "etcd-server"}
    objects = CLIENTS
    ports = ("client", "peer")
    size, sizes, survives_power = 3, range(1, 8), True
    strikes = etcd_members.STRIKES
    cannot = {name: "etcd is written in Go, and does not ask the C library for the time" for name in ("bump", "strobe")}
    plants = {
        "serializable": Plant("reads are serializable: a member answers without asking the others", "cas-register", "pause,partition"),
        "lease": Plant("the lease is shorter than the work", "mutex"),
    }

    @classmethod
    def version(cls) -> Sequence[str]:
        return ("etcd", "--version")

    def __init__(self, *words: Any) -> None:
        super().__init__(*words)
        self.existing: Dict[str, List[str]] = {}  # for a node that has joined the group again: the addresses of the members
        self.numbers: Dict[str, str] = {}  # the numbers that the group has given to nodes
        self.removed: Set[str] = set()  # the numbers of former members

    def command(self, node: Node) -> List[str]:
        peers = {other.name: self.peer(other) for other in [*self.nodes, node]}  # one more node may join
        known = self.existing.get(node.name, list(peers.values()))
        members = ",".join(f"{name}={peer}" for name, peer in peers.items() if peer in known)
        joins = ["sh", "-c", JOIN] if node.name in self.existing else []
        return [*joins, "etcd", "--name", node.name, "--data-dir", str(node.folder / "data"), "--initial-cluster", members,
                "--listen-client-urls", url(node, node.ports["client"]), "--advertise-client-urls", url(node, node.port),
                "--listen-peer-urls", url(node, node.ports["peer"]), "--initial-advertise-peer-urls", self.peer(node),
                "--heartbeat-interval", str(HEARTBEAT), "--election-timeout", str(ELECTION),
                "--initial-cluster-state", "existing" if node.name in self.existing else "new"]

    def peer(self, node: Node) -> str:
        """Returns the address at which other members reach the node."""
        return url(node, node.reach["peer"])

    def ask(self, node: Node, path: str, timeout: float, **body: Any) -> Any:
        """Returns the answer of a node's member about itself."""
        client = EtcdClient(node.listens_at)
        try:
            return client.call(path, timeout, **body)
        finally:
            client.close()

    def ready(self, node: Node) -> None:
        """Raises until the node has a leader, and so answers a read that asks the leader."""
        client = Register(node.listens_at)
        try:
            client.read(0)
        finally:
            client.close()

    def leader(self) -> Optional[Node]:
        for node in self.nodes:
            with node.inside(), contextlib.suppress(OSError):  # a node under a fault may not answer
                status = self.ask(node, "maintenance/status", LEADER_TIMEOUT)
                if status["leader"] == status["header"]["member_id"]:
                    return node
        return None

    def client(self, number: int) -> Client:
        return PLANTED.get(self.plant, CLIENTS[self.model])(self.node_of(number).at)


def url(node: Node, port: int) -> str:
    return f"http://{node.address}:{port}"


def encoded(word: Union[str, int]) -> str:
    return base64.b64encode(str(word).encode()).decode()


def decoded(word: str) -> str:
    return base64.b64decode(word).decode()


def value_is(name: str, value: Union[str, int]) -> Dict[str, Any]:
    return {"key": encoded(name), "target": "VALUE", "result": "EQUAL", "value": encoded(value)}


def put(name: str, value: Union[str, int], **more: Any) -> Dict[str, Any]:
    return {"requestPut": {"key": encoded(name), "value": encoded(value), **more}}
