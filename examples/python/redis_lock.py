#!/usr/bin/env python3
"""Is SET NX PX of Redis a lock? As long as the work ends before the lease. Live under jepmon.

    examples/python/redis_lock.py                      # a lease of 20 ms, work of up to 40 ms: two clients hold the lock
    examples/python/redis_lock.py --lease 5000         # legal

It starts a redis-server of its own on this machine, and stops it. Status: 0 legal, 1 illegal,
2 unknown, 3 where it could not judge, as without Redis.
"""
import argparse
import importlib.util
import pathlib
import random
import sys
import time
import uuid

if importlib.util.find_spec("jepmon") is None:  # it is not installed: the one of this repository
    sys.path.insert(0, str(pathlib.Path(__file__).resolve().parents[2] / "python"))

from jepmon import JepmonError, Keys, Monitor  # noqa: E402
from redis_server import At, Client, RedisError, Server, status_of  # noqa: E402

CLIENTS = 4
RELEASE = "if redis.call('get', KEYS[1]) == ARGV[1] then return redis.call('del', KEYS[1]) else return 0 end"


def client(monitor: Monitor, keys: Keys, number: int, at: At, lease: int, work: int, end: float) -> None:
    """Takes the lock, works, and gives it back, until the time is up, or until what came is not legal."""
    draws = random.Random(number)
    redis = Client(at)
    while time.monotonic() < end:
        key, token = keys.write_key(draws), uuid.uuid4().hex
        with monitor.acquire(key) as op:
            if redis.call("SET", f"lock{key}", token, "NX", "PX", lease) is None:
                op.fail()
        if op.outcome != "ok":
            time.sleep(0.002)
            continue
        time.sleep(draws.random() * work / 1000)
        with monitor.release(key) as op:
            if redis.call("EVAL", RELEASE, 1, f"lock{key}", token) == 0:
                op.fail()  # the lease had run out: there was nothing to give back


def words() -> argparse.Namespace:
    parser = argparse.ArgumentParser(description=__doc__, formatter_class=argparse.RawDescriptionHelpFormatter)
    parser.add_argument("--lease", type=int, default=20, help="milliseconds")
    parser.add_argument("--work", type=int, default=40, help="milliseconds at most")
    parser.add_argument("--seconds", type=float, default=5.0)
    parser.add_argument("--jepmon", metavar="PROGRAM", help="its path, where it is not that of this repository")
    return parser.parse_args()


def main() -> int:
    given = words()
    end = time.monotonic() + given.seconds
    monitor = Monitor(given.jepmon, model="mutex", failed=(ConnectionRefusedError, RedisError), expected=(OSError,))
    keys = monitor.keys()
    try:
        with monitor, Server() as server:
            monitor.run(lambda number: client(monitor, keys, number, server.at, given.lease, given.work, end), CLIENTS)
    except JepmonError as found:
        print(f"{monitor.length} events: {found}")
        return found.status
    print(f"{monitor.length} events: legal")
    return 0


if __name__ == "__main__":
    sys.exit(status_of(main))
