#!/usr/bin/env python3
"""Does a queue without an order lose messages? No wrong answer shows it, so the test drains the queue at its end, and counts.

    examples/python/queue_drain.py             # a queue that loses one message of fifty: legal, and 8 are lost
    examples/python/queue_drain.py --lose 0    # none is lost

The queue lives in this process; put your broker's client in the place of Queue. There requests time out: then messages are sent
to a new queue after some, and those left are received from all the same, and drained at the end. Status: 0 legal and nothing lost, 1 illegal or
lost, 2 unknown, 3 where it could not judge.
"""
import argparse
import collections
import importlib.util
import pathlib
import sys
import threading
import traceback
from typing import Deque, Dict, Optional, Set

if importlib.util.find_spec("jepmon") is None:  # it is not installed: the one of this repository
    sys.path.insert(0, str(pathlib.Path(__file__).resolve().parents[2] / "python"))

from jepmon import JepmonError, Keys, Monitor  # noqa: E402

PAIRS = 4  # of a producer and a consumer, each with queues (keys) of its own: few clients on each, so that no budget is exceeded
MESSAGES = 100  # of each pair
KEYS = 1000  # numbers for the queues of each pair


class Queue:
    """The queue under test. It loses each message whose number is the last of `lose`, or none if that is 0."""

    def __init__(self, lose: int) -> None:
        self.lock = threading.Lock()
        self.lose = lose
        self.held: Dict[int, Deque[int]] = collections.defaultdict(collections.deque)

    def send(self, key: int, message: int) -> None:
        with self.lock:
            if self.lose == 0 or message % self.lose != self.lose - 1:
                self.held[key].append(message)

    def receive(self, key: int) -> Optional[int]:
        """The next message; None where there is none."""
        with self.lock:
            return self.held[key].popleft() if self.held[key] else None


def receive(monitor: Monitor, queue: Queue, key: int, received: Set[int]) -> bool:
    """Receives a message, where there is one. Without a message it is a :fail, and nothing is judged."""
    with monitor.dequeue(key) as op:
        op.value = queue.receive(key)
    if op.outcome == "ok":
        received.add(op.value)  # type: ignore[arg-type]
    return op.outcome == "ok"


def send(monitor: Monitor, queue: Queue, key: int, message: int, sent: Set[int]) -> None:
    with monitor.enqueue(key, message) as op:
        queue.send(key, message)
    if op.outcome != "fail":  # after a timeout it may have been put in
        sent.add(message)


def client(monitor: Monitor, queue: Queue, keys: Keys, number: int, sent: Set[int], received: Set[int]) -> None:
    """The producer or the consumer of a pair."""
    pair = number // 2
    for message in range(pair * MESSAGES, (pair + 1) * MESSAGES):
        if number % 2 == 0:
            send(monitor, queue, keys.write_key(), message, sent)
        else:
            receive(monitor, queue, keys.read_key(), received)


def words() -> argparse.Namespace:
    parser = argparse.ArgumentParser(description=__doc__, formatter_class=argparse.RawDescriptionHelpFormatter)
    parser.add_argument("--lose", type=int, default=50, help="one message of this number; 0 for none")
    parser.add_argument("--jepmon", metavar="PROGRAM", help="its path, where it is not that of this repository")
    return parser.parse_args()


def main() -> int:
    given = words()
    queue, sent, received = Queue(given.lose), set(), set()  # type: Queue, Set[int], Set[int]
    monitor = Monitor(given.jepmon, model="unordered-queue", failed=(ConnectionRefusedError,), expected=(OSError,))
    pairs = [monitor.keys(first=pair * KEYS) for pair in range(PAIRS)]
    try:
        with monitor:
            monitor.run(lambda number: client(monitor, queue, pairs[number // 2], number, sent, received), 2 * PAIRS)
            used = [key for pair in pairs for key in pair.used]
            for key in used:
                while receive(monitor, queue, key, received):  # until it is empty
                    pass
    except JepmonError as found:
        print(found)
        return found.status
    # timed-out messages may have been put in, or taken out, so these are not losses
    timed_out = sum(monitor.timeouts(key) for key in used)
    lost = sent - received
    print(f"sent {len(sent)}, received {len(received)}, timed out {timed_out}: legal, and {len(lost)} messages are lost")
    return 1 if len(lost) > timed_out else 0


if __name__ == "__main__":
    try:
        status = main()
    except Exception:
        traceback.print_exc()
        status = 3
    sys.exit(status)
