"""The links between network namespaces (places.py): a process that takes each packet from one namespace and passes it to another. It can
lose or delay the packets of one direction.

Packets on a cut link are lost, as on a wire. TCP sends them again, so a request that timed out may take place later. TCP also sends
a single lost packet again, and a packet with a flipped bit, since the receiving kernel finds a wrong checksum.

Its one word is a JSON list of [name, address, file of packets]. It reads commands, a line each, and answers `ok`:

    way A B CUT DELAY JITTER LOSS REORDER CORRUPT     the effect on the packets from A to B, as in Effect of links.py
"""
from __future__ import annotations

import heapq
import json
import os
import random
import select
import socket
import sys
import time
from typing import Dict, List, Optional, Tuple

from .places import PACKET

End = Tuple[str, str, int]  # the name of a place, its address, and the file of its packets
LATER = 0.02  # a reordered packet is late by this number of seconds
BATCH = 64  # at most this many packets of one file are passed on in its turn
ENDS = slice(12, 20)  # the bytes of a packet that have the two addresses, sender and receiver


class Way:
    """The packets from one place to another."""

    def __init__(self, target: int) -> None:
        self.target = target
        self.is_cut = self.is_plain = False
        self.set([0.0] * 6)

    def set(self, effect: List[float]) -> None:
        cut, self.delay, self.jitter, self.loss, self.reorder, self.corrupt = effect
        self.is_cut, self.is_plain = bool(cut), not any(effect)


class Switch:
    def __init__(self, ends: List[End]) -> None:
        self.ways: Dict[Tuple[str, str], Way] = {(one[0], other[0]): Way(other[2]) for one in ends for other in ends if one != other}
        addresses = {name: socket.inet_aton(address) for name, address, _ in ends}
        self._by_ends = {addresses[one] + addresses[other]: way for (one, other), way in self.ways.items()}
        self._late: List[Tuple[float, int, Way, bytes]] = []  # the time and a number, so that packets keep their order
        self._count = 0
        self._draws = random.Random(1)

    def forward(self, source: int) -> None:
        """Takes the packets from one place. Drops packets without a receiver, such as those of IPv6."""
        for _ in range(BATCH):
            try:
                packet = os.read(source, PACKET)
            except OSError:
                return
            way = self._by_ends.get(packet[ENDS])
            if way is None:
                continue
            if way.is_plain:
                give(way, packet)
            else:
                self._strike(way, packet)

    def _strike(self, way: Way, packet: bytes) -> None:
        if way.is_cut or self._draws.random() < way.loss:
            return
        if self._draws.random() < way.corrupt:
            packet = flipped(packet, self._draws)
        late = way.delay + self._draws.random() * way.jitter
        if self._draws.random() < way.reorder:
            late += LATER
        if late:
            self._count += 1
            heapq.heappush(self._late, (time.monotonic() + late, self._count, way, packet))
        else:
            give(way, packet)

    def give_late(self) -> Optional[float]:
        """Passes on the packets whose time has come. Returns how long the next packet has to wait."""
        while self._late:
            left = self._late[0][0] - time.monotonic()
            if left > 0:
                return left
            _, _, way, packet = heapq.heappop(self._late)
            if not way.is_cut:
                give(way, packet)
        return None

    def obey(self, words: List[str]) -> None:
        self.ways[words[1], words[2]].set(list(map(float, words[3:])))


def flipped(packet: bytes, draws: random.Random) -> bytes:
    """The packet with one flipped bit, after the addresses."""
    at = draws.randrange(ENDS.stop, len(packet)) if len(packet) > ENDS.stop else 0
    return packet[:at] + bytes([packet[at] ^ 1 << draws.randrange(8)]) + packet[at + 1:]


def give(way: Way, packet: bytes) -> None:
    try:
        os.write(way.target, packet)
    except OSError:
        pass  # the packet is lost, as if a queue were full


def serve(ends: List[End]) -> None:
    """Passes packets on until standard input ends, which means that the test has ended."""
    switch, rest = Switch(ends), b""
    poll = select.epoll()
    for name, _, packets in ends:
        poll.register(packets, select.EPOLLIN)
    commands = sys.stdin.fileno()
    poll.register(commands, select.EPOLLIN | select.EPOLLHUP)
    while True:
        left = switch.give_late()
        for file, _ in poll.poll(left):
            if file != commands:
                switch.forward(file)
                continue
            text = os.read(commands, 1 << 16)
            if not text:
                return
            *lines, rest = (rest + text).split(b"\n")
            for line in lines:
                switch.obey(line.decode().split())
                print("ok", flush=True)


if __name__ == "__main__":
    serve([(end[0], end[1], end[2]) for end in json.loads(sys.argv[1])])
