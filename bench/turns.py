#!/usr/bin/env python3
"""Prints a history of one register whose clients take turns: turns.py OPERATIONS CLIENTS [SEED].

In each round every client completes its operation and begins the next one at once, so all other clients complete one operation while
it is open. Each client writes and reads in turn, values differ, and an operation takes effect at a moment of its round that is drawn.
The server of a library that gets messages in order makes such histories. Wide registers take longest for them.
"""
import random
import sys
from typing import List, Optional


class Client:
    """A client: the operations that it began, and the value of the open one once it has taken effect."""

    def __init__(self, number: int) -> None:
        self.number, self.count, self.took = number, 0, True
        self.value: Optional[int] = None

    def line(self, kind: str) -> str:
        name = "read" if self.count % 2 == 0 else "write"
        part = "nil" if kind == "invoke" and name == "read" else self.value
        return f"{{:type :{kind} :process {self.number} :f :{name} :value [0 {part}]}}"

    def begin(self) -> str:
        self.count += 1
        self.took = False
        self.value = self.number * 1_000_000 + self.count
        return self.line("invoke")

    def effect(self, store: int) -> int:
        """Its open operation takes effect: the value of the store after it."""
        self.took = True
        if self.count % 2 == 1 and self.value is not None:
            return self.value
        self.value = store
        return store


def history(operations: int, clients: int, seed: int) -> List[str]:
    draw, all_of_them, store = random.Random(seed), [Client(number) for number in range(clients)], -1
    lines = [f"{{:type :{kind} :process 0 :f :write :value [0 -1]}}" for kind in ("invoke", "ok")]
    for turn in range(operations + clients):
        client = all_of_them[turn % clients]
        if turn >= clients:
            if not client.took:
                store = client.effect(store)
            lines.append(client.line("ok"))
        if turn < operations:
            lines.append(client.begin())
        for other in all_of_them:
            if not other.took and draw.random() < 2 / clients:
                store = other.effect(store)
    return lines


if __name__ == "__main__":
    if len(sys.argv) not in (3, 4):
        sys.exit(__doc__)
    print("\n".join(history(int(sys.argv[1]), int(sys.argv[2]), int((sys.argv + ["1"])[3]))))
