"""ZooKeeper: three servers. Each client uses one of them. A znode is a register, and its version makes it a cas-register.

A server answers a read from its own data. So before a read a client sets a znode that all clients share: the session's server then has
everything that was acknowledged before. (`sync`, which is made for this, asks only the leader, and the leader may have been replaced
without knowing it.)

The meaning of errors: a refused connection, a refused session, and an error as an answer are a :fail. Everything else except an answer is
an :info.
"""
from __future__ import annotations

import pathlib
import socket
from typing import Dict, List, Optional, Type

from ...live.outcome_rules import Exceptions
from ..errors import ServerError
from ..node import At, Node
from ..server import ALL_STRIKES, Client, Plant, Server
from ..wire.zookeeper import BAD_VERSION, NoSession, ZooKeeperError
from ..wire.zookeeper import ZooKeeper as Connection

TIMEOUT, LEADER_TIMEOUT = 1.0, 0.3  # seconds
TICK = 500  # milliseconds
JAR = pathlib.Path("/usr/share/java/zookeeper.jar")
LOGGING = JAR.with_name("slf4j-simple.jar")  # if this file exists, the servers log why they end
MAIN = "org.apache.zookeeper.server.quorum.QuorumPeerMain"


class Register(Client):
    certain: Exceptions = (ConnectionRefusedError, NoSession, ZooKeeperError)

    def __init__(self, at: At) -> None:
        self.zookeeper = Connection(at, TIMEOUT)

    def up_to_date(self) -> None:
        """Makes sure that the server has everything that was acknowledged by now."""
        self.zookeeper.put("/read", b"")

    def read(self, key: int) -> Optional[int]:
        self.up_to_date()
        found = self.zookeeper.get(f"/r{key}")
        return int(found.data) if found is not None else None

    def write(self, key: int, value: int) -> None:
        self.zookeeper.put(f"/r{key}", str(value).encode())

    def cas(self, key: int, old: int, new: int) -> bool:
        found = self.zookeeper.get(f"/r{key}")
        if found is None or int(found.data) != old:
            return False
        try:
            self.zookeeper.set(f"/r{key}", str(new).encode(), found.version)
        except ZooKeeperError as fault:
            if fault.code == BAD_VERSION:
                return False
            raise
        return True

    def close(self) -> None:
        self.zookeeper.close()


class OwnRegister(Register):
    """Registers whose reads give the server's own data, as in most applications."""

    def up_to_date(self) -> None:
        pass


CLIENTS: Dict[str, Type[Register]] = {"cas-register": Register, "register": Register}
PLANTED: Dict[str, Type[Register]] = {"own": OwnRegister}


class ZooKeeper(Server):
    programs = {"java": "zookeeper"}
    objects = CLIENTS
    ports = ("client", "peer", "election")
    size, sizes, survives_power = 3, range(1, 8), True
    # A torn record in its log ends a server for good, so `tear` is not among the strikes that it should survive.
    bears = {model: (*ALL_STRIKES, "power") for model in CLIENTS}
    durabilities = {"sync": "each change is synced before it is acknowledged (the default)", "none": "zookeeper.forceSync=no: nothing is synced"}
    plants = {"own": Plant("reads give the data of the client's server", "register", "pause,partition")}

    @classmethod
    def test_installed(cls) -> None:
        super().test_installed()
        if not JAR.exists():
            raise ServerError("ZooKeeper is not installed: on Debian, apt-get install zookeeper")

    def prepare(self, node: Node) -> None:
        data = node.folder / "data"
        data.mkdir()
        (data / "myid").write_text(f"{node.number + 1}\n")
        lines = [f"tickTime={TICK}", "initLimit=20", "syncLimit=4", f"dataDir={data}", f"clientPort={node.ports['client']}",
                 f"clientPortAddress={node.address}", "admin.enableServer=false", "4lw.commands.whitelist=srvr", "maxClientCnxns=0"]
        for other in self.nodes:
            ports = other.ports if other is node else other.reach
            lines.append(f"server.{other.number + 1}={other.address}:{ports['peer']}:{ports['election']}")
        (node.folder / "zoo.cfg").write_text("\n".join(lines) + "\n")

    def command(self, node: Node) -> List[str]:
        syncs = f"-Dzookeeper.forceSync={'no' if self.durability == 'none' else 'yes'}"
        return ["java", "-Xmx128m", "-XX:+UseSerialGC", "-XX:TieredStopAtLevel=1", syncs, "-cp", f"{JAR}:{LOGGING}", MAIN, str(node.folder / "zoo.cfg")]

    def ready(self, node: Node) -> None:
        if not mode(node, TIMEOUT):
            raise ServerError("it is not one of a majority yet")

    def leader(self) -> Optional[Node]:
        for node in self.nodes:
            with node.inside():
                if mode(node, LEADER_TIMEOUT) == "leader":
                    return node
        return None

    def client(self, number: int) -> Client:
        return PLANTED.get(self.plant, CLIENTS[self.model])(self.node_of(number).at)


def mode(node: Node, timeout: float) -> str:
    """Its own role: leader, follower or standalone; empty if it says nothing."""
    try:
        with socket.create_connection(node.listens_at, timeout) as connection:
            connection.sendall(b"srvr")
            lines = connection.makefile().read().splitlines()
    except OSError:
        return ""
    return next((line.partition(": ")[2] for line in lines if line.startswith("Mode: ")), "")
