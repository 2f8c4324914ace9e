"""RabbitMQ: one node, with durable queues, persistent messages with confirms, and consumers that get and acknowledge. Several nodes are a
cluster with quorum queues, whose minority pauses itself. The cluster needs network namespaces, since all nodes use the same port, each at
its own address.

It delivers at least once: unacknowledged messages come again when a connection or the server has ended. So a dequeue takes place when a
message comes for the first time in the whole test. A message that has come before is a :fail.

A queue is declared some time before its first message comes: a kill 0.5 s and 1.3 s after the declaration lost durable queues with all the
confirmed messages in them (RabbitMQ 3.10.8).

The meaning of errors: if there is no connection yet, or it has not declared the queue, nothing was sent, which is a :fail. A message that
was sent and not confirmed is an :info. A get without an answer is a :fail: if the broker has sent a message, it was not acknowledged, and
comes again.
"""
from __future__ import annotations

import pathlib
import shutil
import threading
import time
from typing import Dict, List, Optional, Sequence, Tuple, Type

from ...live.verdicts import Failed
from ..came import Came
from ..errors import ServerError
from ..node import At, Node
from ..server import Client, Plant, Server
from ..wire.amqp import CLASSIC, QUORUM, Amqp, Message

TIMEOUT = 1.0  # seconds
PROGRAM = pathlib.Path("/usr/lib/rabbitmq/bin/rabbitmq-server")
# epmd finds Erlang's nodes. Erlang would start an epmd that outlives the server. This epmd belongs to the node's family, and ends with the
# node.
START = 'epmd & until epmd -names >/dev/null 2>&1; do sleep 0.1; done; exec "$0"'
COOKIE = ".erlang.cookie"  # nodes with the same cookie accept one another
CONFIGURED = """cluster_formation.peer_discovery_backend = classic_config
cluster_partition_handling = pause_minority
"""
TICKS = "-kernel net_ticktime 8"  # after 8 seconds, a silent node counts as down


class Names:
    """The queues of the keys, in the order in which keys come, so that the queues of the next keys can be declared in advance."""

    AHEAD, SETTLED = 32, 5.0  # the number of queues that are declared in advance, and the seconds until the first ones are used

    def __init__(self) -> None:
        self._lock = threading.Lock()
        self._numbers: Dict[int, int] = {}  # the number of the queue of each key

    def of(self, key: int) -> Tuple[str, Optional[str]]:
        """The queue of the key; for a new key also the queue to declare for a later key."""
        with self._lock:
            is_new = key not in self._numbers
            number = self._numbers.setdefault(key, len(self._numbers))
        return f"q{number}", f"q{number + self.AHEAD}" if is_new else None


class Queue(Client):
    durable = True

    def __init__(self, at: At, kind: str, came: Came, names: Names) -> None:
        self.amqp, self.came, self.names = Amqp(at, TIMEOUT, kind), came, names

    def queue(self, key: int) -> str:
        name, ahead = self.names.of(key)
        if ahead is not None:
            self.amqp.declare(ahead, self.durable)
        return name

    def enqueue(self, key: int, value: int) -> None:
        self.amqp.publish(self.queue(key), str(value).encode(), durable=self.durable)

    def dequeue(self, key: int) -> Optional[int]:
        message = self.got(key)
        if message is None:
            return None
        value = int(message.body)
        is_first = self.came.first(value)
        try:
            self.amqp.acknowledge(message)
        except OSError:
            self.amqp.close()  # the message comes again
        if not is_first:
            raise Failed("it has come before")
        return value

    def got(self, key: int) -> Optional[Message]:
        try:
            return self.amqp.get(self.queue(key), durable=self.durable)
        except OSError as fault:
            raise Failed(str(fault)) from fault

    def close(self) -> None:
        self.amqp.close()


class EarlyQueue(Queue):
    durable = False


class LateQueue(Queue):
    """Records a repeated message as a new one, and acknowledges a message only when the next one comes."""

    late: Optional[Message] = None

    def dequeue(self, key: int) -> Optional[int]:
        was_open = self.amqp.stream.is_open
        message = self.got(key)
        if self.late is not None and was_open and self.amqp.stream.is_open:
            self.amqp.acknowledge(self.late)
        self.late = message
        return None if message is None else int(message.body)


PLANTED: Dict[str, Type[Queue]] = {"early": EarlyQueue, "twice": LateQueue}


class RabbitMQ(Server):
    objects = {"unordered-queue": Queue}
    ports = ("client", "distribution", "epmd")
    sizes, in_turn, by_addresses = range(1, 6), True, True
    patience = 300.0
    plants = {
        "early": Plant("messages are confirmed before they are on the disk: they are not persistent", "unordered-queue", "kill:n1", 1),
        "twice": Plant("what comes again after a kill is taken for another message", "unordered-queue", "kill:n1", 1),
    }

    @classmethod
    def version(cls) -> Sequence[str]:
        return (str(PROGRAM.with_name("rabbitmqctl")), "version")

    @classmethod
    def test_installed(cls) -> None:
        if not PROGRAM.exists() or shutil.which("epmd") is None:
            raise ServerError("RabbitMQ is not installed: on Debian, apt-get install rabbitmq-server")

    def __init__(self, *words: object) -> None:
        super().__init__(*words)  # type: ignore[arg-type]
        self.came, self.names = Came(), Names()
        self.kind = QUORUM if len(self.nodes) > 1 else CLASSIC

    def prepare(self, node: Node) -> None:
        (node.folder / "plugins").write_text("[].\n")
        members = "".join(f"cluster_formation.classic_config.nodes.{one.number + 1} = {name_of(one)}\n" for one in self.nodes)
        # in a network namespace clients have another address
        (node.folder / "rabbitmq.conf").write_text("loopback_users = none\n" + (CONFIGURED + members if len(self.nodes) > 1 else ""))
        (node.folder / COOKIE).write_text("jepmon")
        (node.folder / COOKIE).chmod(0o400)
        node.environment = {
            "HOME": str(node.folder), "LANG": "C.UTF-8", "ERL_EPMD_ADDRESS": node.address, "ERL_EPMD_PORT": str(self.nodes[0].ports["epmd"]),
            "RABBITMQ_USE_LONGNAME": "true", "RABBITMQ_NODENAME": name_of(node), "RABBITMQ_NODE_IP_ADDRESS": node.address,
            "RABBITMQ_NODE_PORT": str(node.ports["client"]), "RABBITMQ_DIST_PORT": str(node.ports["distribution"]),
            "RABBITMQ_MNESIA_BASE": str(node.folder / "data"), "RABBITMQ_LOG_BASE": str(node.folder), "RABBITMQ_LOGS": "-",
            "RABBITMQ_CONFIG_FILE": str(node.folder / "rabbitmq.conf"), "RABBITMQ_CONF_ENV_FILE": str(node.folder / "none"),
            "RABBITMQ_ENABLED_PLUGINS_FILE": str(node.folder / "plugins"), "RABBITMQ_PID_FILE": str(node.folder / "pid"),
            "RABBITMQ_SERVER_ADDITIONAL_ERL_ARGS": f"+S 2:2 +sbwt none +sbwtdcpu none +sbwtdio none {TICKS}",  # the server starts faster
        }

    def command(self, node: Node) -> List[str]:
        return ["sh", "-c", START, str(PROGRAM)]

    def client(self, number: int) -> Client:
        return PLANTED.get(self.plant, Queue)(self.node_of(number).at, self.kind, self.came, self.names)

    def begun(self) -> None:
        amqp = Amqp(self.nodes[0].at, self.patience, self.kind)
        for number in range(Names.AHEAD):
            amqp.declare(f"q{number}", self.plant != "early")
        amqp.close()
        time.sleep(Names.SETTLED)

    def ready(self, node: Node) -> None:
        amqp = Amqp(node.listens_at, 5.0, self.kind)
        try:
            amqp.get("ready")
        finally:
            amqp.close()


def name_of(node: Node) -> str:
    """The name of the node in Erlang."""
    return f"jepmon{node.ports['client']}@{node.address}"
