#!/usr/bin/env python3
"""Is Redis a linearizable register? Writers go to the primary, readers to its replica or to the primary too, under jepmon.

    examples/python/redis_stale.py                     # readers at the replica: a stale read is found
    examples/python/redis_stale.py --read-at primary   # legal

It starts two redis-servers of its own on this machine, and stops them. Status: 0 legal, 1 illegal,
2 unknown, 3 where it could not judge, as without Redis.
"""
import argparse
import importlib.util
import itertools
import pathlib
import random
import sys
import time
from typing import Iterator

if importlib.util.find_spec("jepmon") is None:  # it is not installed: the one of this repository
    sys.path.insert(0, str(pathlib.Path(__file__).resolve().parents[2] / "python"))

from jepmon import JepmonError, Keys, Monitor  # noqa: E402
from redis_server import At, Client, RedisError, Server, status_of  # noqa: E402

CLIENTS = 5
KEYS = 3  # open to writes at a time


def client(
    monitor: Monitor, keys: Keys, number: int, values: Iterator[int], primary: At, reader: At, end: float
) -> None:
    """Reads and writes until the time is up, or until what came is not legal."""
    draws = random.Random(number)
    write_at, read_at = Client(primary), Client(reader)
    while time.monotonic() < end:
        if draws.random() < 0.5:
            key, value = keys.write_key(draws), next(values)
            with monitor.write(key, value):
                write_at.call("SET", f"k{key}", value)
        else:
            key = keys.read_key(draws)
            with monitor.read(key) as op:
                answer = read_at.call("GET", f"k{key}")
                op.value = None if answer is None else int(answer)


def words() -> argparse.Namespace:
    parser = argparse.ArgumentParser(description=__doc__, formatter_class=argparse.RawDescriptionHelpFormatter)
    parser.add_argument("--read-at", choices=("replica", "primary"), default="replica")
    parser.add_argument("--seconds", type=float, default=5.0)
    parser.add_argument("--jepmon", metavar="PROGRAM", help="its path, where it is not that of this repository")
    return parser.parse_args()


def main() -> int:
    given = words()
    values = itertools.count(1)
    end = time.monotonic() + given.seconds
    # a request that timed out may yet take place, and counts for the rest of the run; a connection that was refused sent none
    monitor = Monitor(given.jepmon, failed=(ConnectionRefusedError, RedisError), expected=(OSError,))
    keys = monitor.keys(KEYS)
    try:
        with monitor, Server() as primary, Server(primary) as replica:
            reader = (replica if given.read_at == "replica" else primary).at
            monitor.run(lambda number: client(monitor, keys, number, values, primary.at, reader, end), CLIENTS)
    except JepmonError as found:
        print(f"{monitor.length} events: {found}")
        return found.status
    print(f"{monitor.length} events: legal")
    return 0


if __name__ == "__main__":
    sys.exit(status_of(main))
