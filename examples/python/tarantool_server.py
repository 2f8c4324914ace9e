"""Tarantool (Debian's package `tarantool`) under jepmon-test, with a workload of its own, `claims`:

    jepmon-test examples/python/tarantool_server.py
    jepmon-test examples/python/tarantool_server.py --inject-bug dirty

One node writes its journal with fsync. If there are several nodes, the first one is the master, and a write waits for a majority. Tarantool 2.6.0
shows a write to readers before the majority has it, and rolls the write back if the majority does not answer in time. So a plain read is
dirty (`--inject-bug dirty`). The read here commits a write of its own, which waits for all writes before it.
"""
from __future__ import annotations

import random
import shutil
from typing import Any, List, Optional

from jepmon.testing import Client, Node, Plant, Server, Work
from jepmon.testing.wire.streams import Stream

INIT = """
box.cfg{listen = '%(peer)s', replication = {%(peers)s}, read_only = %(follows)s, wal_mode = '%(wal)s', replication_timeout = 0.2,
        replication_connect_timeout = 5, replication_connect_quorum = 0, replication_synchro_quorum = %(majority)d,
        replication_synchro_timeout = 0.3, memtx_memory = 64 * 1024 * 1024}
if not box.cfg.read_only then
  box.once('spaces', function()
    box.schema.user.grant('guest', 'replication')
    box.schema.sequence.create('numbers')
    local options = {is_sync = %(sync)s}
    box.schema.space.create('registers', options):create_index('pk', {parts = {1, 'unsigned'}})
    box.schema.space.create('reads', options):create_index('pk', {parts = {1, 'unsigned'}})
    box.schema.space.create('queues', options):create_index('pk', {parts = {1, 'unsigned', 2, 'unsigned'}})
  end)
end
function dirty_read(key)
  local found = box.space.registers:get(key)
  return found and found[2]
end
function read(key)
  box.begin()
  local found = dirty_read(key)
  box.space.reads:replace{1}
  box.commit()
  return found
end
function write(key, new)
  box.space.registers:replace{key, new}
  return true
end
function cas(key, old, new)
  return dirty_read(key) == old and write(key, new)
end
function claim(key, client)
  return cas(key, nil, client)
end
function enqueue(queue, message)
  box.space.queues:insert{queue, box.sequence.numbers:next(), message}
  return true
end
function dequeue(queue)
  local first = box.space.queues:select(queue, {limit = 1})[1]
  return first and box.space.queues:delete{first[1], first[2]}[3]
end
require('console').listen('%(client)s')
"""


class TarantoolError(Exception):
    """The answer is an error: the transaction was rolled back."""


class Console(Client):
    """Calls functions of INIT by Tarantool's console, which answers a line of Lua by a document of YAML."""

    certain = (ConnectionRefusedError, TarantoolError)
    unsure = (OSError,)

    def __init__(self, node: Node, read: str = "read") -> None:
        self.stream, self.name_of_read = Stream(node.at, 0.5), read

    def open(self) -> None:
        self.stream.open()
        for _ in range(2):
            self.stream.line()  # of its greeting

    def call(self, name: str, *words: int) -> Any:
        with self.stream.request(self.open):
            self.stream.send(f"return {name}({', '.join(map(str, words))})\n".encode())
            lines: List[str] = []
            while lines[-1:] != ["..."]:
                lines.append(self.stream.line().decode(errors="replace"))
        answer = lines[1].partition("- ")[2]
        if answer.startswith("error"):
            raise TarantoolError(answer)
        return {"true": True, "false": False, "null": None}[answer] if answer.isalpha() else int(answer)

    def read(self, key: int) -> Optional[int]:
        found: Optional[int] = self.call(self.name_of_read, key)
        return found

    def write(self, key: int, value: int) -> None:
        self.call("write", key, value)

    def cas(self, key: int, old: int, new: int) -> bool:
        return self.call("cas", key, old, new) is True

    def enqueue(self, key: int, value: int) -> None:
        self.call("enqueue", key, value)

    def dequeue(self, key: int) -> Optional[int]:
        found: Optional[int] = self.call("dequeue", key)
        return found

    def claim(self, key: int, client: int) -> bool:
        return self.call("claim", key, client) is True

    def close(self) -> None:
        self.stream.close()


class Claims(Work):
    """Names that only one client may get: locks that nobody releases."""

    model = "mutex"
    names = ("acquire",)
    CHANGES = 3

    def step(self, number: int, client: Console, draws: random.Random, changes: float) -> Any:
        return self.claim(number, client, draws.choice(self.handles))

    def claim(self, number: int, client: Console, one: Any) -> Any:
        with one.acquire() as op:
            if not client.claim(int(op.name), number):
                op.fail()
        return op

    def finish(self, ask: Any) -> None:
        """At the end each name has an owner, so that nobody else may get it."""
        for one in self.each_left():
            ask(lambda client: self.claim(self.clients, client, one))


class Tarantool(Server):
    programs = {"tarantool": "tarantool"}
    objects = {"cas-register": Console, "fifo-queue": Console, "claims": Console}
    workloads = {"claims": Claims}
    ports = ("client", "peer")
    sizes = range(1, 6)
    survives_power = True
    durabilities = {"fsync": "wal_mode=fsync", "write": "wal_mode=write: it does not start with a journal that is cut off", "none": "wal_mode=none"}
    plants = {"dirty": Plant("reads of writes that no majority has yet", "cas-register", "kill,pause,partition", nodes=3),
              "forgetful": Plant("nothing is on the disk", "cas-register", "kill")}

    @classmethod
    def version(cls) -> List[str]:
        return ["tarantool", "--version"]

    def prepare(self, node: Node) -> None:
        many, others = len(self.nodes) > 1, [other for other in self.nodes if other is not node]
        own = f"{node.address}:{node.ports['peer']}"
        (node.folder / "init.lua").write_text(INIT % {
            "peer": own, "client": f"{node.address}:{node.ports['client']}", "follows": str(node.number > 0).lower(), "sync": str(many).lower(),
            "peers": ", ".join(f"'{at}'" for at in [own, *(f"{other.address}:{other.reach['peer']}" for other in others)]),
            "majority": len(self.nodes) // 2 + 1, "wal": "none" if self.plant == "forgetful" else self.durability})

    def command(self, node: Node) -> List[str]:
        return [str(shutil.which("tarantool")), str(node.folder / "init.lua")]

    def client(self, number: int) -> Client:
        return Console(self.nodes[0], "dirty_read" if self.plant == "dirty" else "read")

    def reader(self, node: Node) -> Client:
        return Console(node, "dirty_read")
