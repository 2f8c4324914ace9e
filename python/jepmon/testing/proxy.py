"""The links of a test: a process between the nodes, and between clients and nodes, which can hold or delay the bytes of one direction.

It needs no rights, so it works on any machine. Held bytes are not lost: the proxy passes them on when the link is open again, as if TCP
sent them again. So a request that timed out may take place later.

Its one word is a JSON list of [port, port of the server, name of the node]. It reads commands, a line each, and answers `ok`:

    node n1 PID          the process of a node, by which the connections that it makes are known
    down n1              nothing listens for the node: a connection to it is refused, as without a link
    up n1                it listens as soon as the node does
    way A B CUT DELAY JITTER LOSS REORDER CORRUPT
                         the bytes from A to B are held or delayed, as Effect of links.py says; A and B are names of nodes, or `clients`. The
                         proxy carries bytes and not packets, so it has no effects on a share of packets
"""
from __future__ import annotations

import asyncio
import json
import os
import random
import sys
from typing import Dict, List, Optional, Set, Tuple

from .family import family

Link = Tuple[int, int, str]  # the port where others connect, the port of the server, the name of the node

ADDRESS = "127.0.0.1"
CLIENTS = "clients"
CHUNK = 1 << 16
GLANCE = 0.02  # seconds between two looks whether a server listens


class Way:
    """The bytes from one place to another."""

    def __init__(self) -> None:
        self.open = asyncio.Event()
        self.open.set()
        self.delay = self.jitter = 0.0

    @property
    def is_struck(self) -> bool:
        return bool(self.delay or self.jitter) or not self.open.is_set()

    def set(self, cut: float, delay: float, jitter: float) -> None:
        self.delay, self.jitter = delay, jitter
        (self.open.clear if cut else self.open.set)()


class Connection:
    """A connection to a node. The proxy looks up its source only if a link is struck. The lookup costs more than all other steps, and a
    busy machine would never catch up with the waiting connections."""

    def __init__(self, proxy: Proxy, port: int, link: Link) -> None:
        self._proxy, self._port, self._link = proxy, port, link
        self._source = ""

    async def carry(self, source: asyncio.StreamReader, target: asyncio.StreamWriter, is_answer: bool) -> None:
        """Runs until the source ends, and then also ends the target's side. Raises an OSError if one of the two is gone."""
        while True:
            data = await source.read(CHUNK)
            await self._pass(is_answer)
            if not data:
                target.write_eof()
                return
            target.write(data)
            await target.drain()

    async def _pass(self, is_answer: bool) -> None:
        """Waits as long as this way is cut, and for the delay of a slow way."""
        while self._proxy.is_struck:
            self._source = self._source or source_of(self._port, self._link[0], self._proxy.pids)
            ends = self._source, self._link[2]
            way = self._proxy.way(*(reversed(ends) if is_answer else ends))
            if way.open.is_set():
                await asyncio.sleep(way.delay + random.random() * way.jitter)
                if way.open.is_set():
                    return
            await way.open.wait()


class Proxy:
    def __init__(self, links: List[Link]) -> None:
        self.links = links
        self.is_struck = False  # whether any way is cut or slow
        self.ways: Dict[Tuple[str, str], Way] = {}
        self.pids: Dict[str, int] = {}
        self.listening: Dict[int, asyncio.AbstractServer] = {}
        self.waiting: Dict[int, "asyncio.Task[None]"] = {}  # tasks that wait until the server listens
        self.connections: Set["asyncio.Task[None]"] = set()

    def way(self, source: str, target: str) -> Way:
        return self.ways.setdefault((source, target), Way())

    async def listen(self, link: Link) -> None:
        async def connected(reader: asyncio.StreamReader, writer: asyncio.StreamWriter) -> None:
            task = asyncio.current_task()
            assert task is not None
            self.connections.add(task)
            try:
                await self.carry(reader, writer, link)
            finally:
                self.connections.discard(task)

        while True:
            try:
                _, probe = await asyncio.open_connection(ADDRESS, link[1])
                probe.close()
                break
            except OSError:
                await asyncio.sleep(GLANCE)
        if link[0] not in self.listening:
            self.listening[link[0]] = await asyncio.start_server(connected, ADDRESS, link[0])

    async def carry(self, reader: asyncio.StreamReader, writer: asyncio.StreamWriter, link: Link) -> None:
        """One connection, until both sides have ended it, or one has gone."""
        other: Optional[asyncio.StreamWriter] = None
        try:
            peer = writer.get_extra_info("peername")
            if peer is None:
                return  # it has gone already
            answers, other = await asyncio.open_connection(ADDRESS, link[1])
            connection = Connection(self, peer[1], link)
            both = [asyncio.ensure_future(connection.carry(reader, other, False)),
                    asyncio.ensure_future(connection.carry(answers, writer, True))]
            await asyncio.wait(both, return_when=asyncio.FIRST_EXCEPTION)
            for one in both:
                one.cancel()
            await asyncio.gather(*both, return_exceptions=True)
        except OSError:
            pass
        finally:
            for end in (writer, other):
                if end is not None:
                    end.transport.abort()

    # --- Commands ---

    async def obey(self, words: List[str]) -> None:
        command, rest = words[0], words[1:]
        if command == "node":
            self.pids[rest[0]] = int(rest[1])
        elif command == "up":
            for link in self.links:
                if link[2] == rest[0]:
                    self.waiting[link[0]] = asyncio.ensure_future(self.listen(link))
        elif command == "down":
            for port, _, name in self.links:
                if name == rest[0] and port in self.waiting:
                    self.waiting.pop(port).cancel()
                if name == rest[0] and port in self.listening:
                    self.listening.pop(port).close()
        else:
            self.way(rest[0], rest[1]).set(*map(float, rest[2:5]))
            self.is_struck = any(way.is_struck for way in self.ways.values())


def source_of(port: int, to: int, pids: Dict[str, int]) -> str:
    """The node that has made a connection from this port, or else `clients`."""
    inode = inode_of(port, to)
    wanted = f"socket:[{inode}]"
    if not inode or wanted in open_files(os.getppid()):
        return CLIENTS
    for only_first in (True, False):  # in most servers the first process makes all connections
        for name, pid in pids.items():
            for member in [pid] if only_first else family(pid)[1:]:
                if wanted in open_files(member):
                    return name
    return CLIENTS


def inode_of(port: int, to: int) -> str:
    for table in ("/proc/net/tcp", "/proc/net/tcp6"):
        try:
            with open(table, encoding="ascii") as file:
                for line in file:
                    fields = line.split()
                    if fields[1].endswith(f":{port:04X}") and fields[2].endswith(f":{to:04X}"):
                        return fields[9]
        except (OSError, IndexError):
            pass
    return ""  # it has gone already


def open_files(pid: int) -> Set[str]:
    found: Set[str] = set()
    try:
        for name in os.listdir(f"/proc/{pid}/fd"):
            try:
                found.add(os.readlink(f"/proc/{pid}/fd/{name}"))
            except OSError:
                pass
    except OSError:
        pass
    return found


async def serve(links: List[Link]) -> None:
    proxy = Proxy(links)
    loop = asyncio.get_running_loop()
    lines = asyncio.StreamReader()
    await loop.connect_read_pipe(lambda: asyncio.StreamReaderProtocol(lines), sys.stdin)
    while True:
        line = (await lines.readline()).decode()
        if not line:
            os._exit(0)  # the test has ended, so all connections end too
        try:
            await proxy.obey(line.split())
            reply = "ok"
        except OSError as fault:
            reply = f"no: {fault}"
        print(reply, flush=True)


if __name__ == "__main__":
    asyncio.run(serve([(link[0], link[1], link[2]) for link in json.loads(sys.argv[1])]))
