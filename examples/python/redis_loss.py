#!/usr/bin/env python3
"""Does Redis keep what it has acknowledged? The server is killed by SIGKILL and started again, once a second, under jepmon.

    examples/python/redis_loss.py                      # it keeps nothing on its disk: a read shows the loss after the first kill
    examples/python/redis_loss.py --keep               # each command is in a file before it is answered: legal
    examples/python/redis_loss.py --out runs/          # leaves the history, with the kills, and a page of what is wrong

At the kill several writes of each key time out, so that writes go on at new keys. Reads do not: who left the keys as a whole would
never ask for what was lost. That is what Monitor.keys is for. And a connection that is refused is a :fail, not a timeout: nothing
was sent. It starts a redis-server of its own on this machine, and stops it. Status: 0 legal, 1 illegal, 2 unknown, 3 where it
could not judge, as without Redis.
"""
import argparse
import importlib.util
import itertools
import pathlib
import random
import sys
import time
from typing import Iterator

if importlib.util.find_spec("jepmon") is None:  # it is not installed: the one of this repository
    sys.path.insert(0, str(pathlib.Path(__file__).resolve().parents[2] / "python"))

from jepmon import JepmonError, Keys, Monitor, Operation  # noqa: E402
from redis_server import At, Client, RedisError, Server, status_of  # noqa: E402

CLIENTS = 5
KEYS = 3  # open to writes at a time


def client(monitor: Monitor, keys: Keys, number: int, values: Iterator[int], at: At, end: float) -> None:
    """Reads and writes until the time is up, or until what came is not legal."""
    draws = random.Random(number)
    redis = Client(at)
    while time.monotonic() < end:
        if draws.random() < 0.5:
            key, value = keys.write_key(draws), next(values)
            with monitor.write(key, value) as op:
                redis.call("SET", f"k{key}", value)
        else:
            op = read(monitor, redis, keys.read_key(draws))
        if op.outcome != "ok":
            time.sleep(0.01)  # while it is down, not thousands of refused connections a second


def read(monitor: Monitor, redis: Client, key: int) -> Operation:
    with monitor.read(key) as op:
        answer = redis.call("GET", f"k{key}")
        op.value = None if answer is None else int(answer)
    return op


def kill_each_second(monitor: Monitor, server: Server, end: float) -> None:
    while time.monotonic() < end - 1:
        time.sleep(0.7)
        with monitor.fault("redis-server is down"):
            monitor.note("kill -9 of redis-server")
            server.kill()
            time.sleep(0.3)
            server.start()


def words() -> argparse.Namespace:
    parser = argparse.ArgumentParser(description=__doc__, formatter_class=argparse.RawDescriptionHelpFormatter)
    parser.add_argument("--keep", action="store_true", help="let the server write each command to a file before it answers")
    parser.add_argument("--seconds", type=float, default=5.0)
    parser.add_argument("--out", metavar="FOLDER", help="leave the history, the verdict and a page in a folder there")
    parser.add_argument("--jepmon", metavar="PROGRAM", help="its path, where it is not that of this repository")
    return parser.parse_args()


def main() -> int:
    given = words()
    values = itertools.count(1)
    end = time.monotonic() + given.seconds
    # refused, or answered by an error: it did not take place. A timeout, or a connection that was cut: who knows
    monitor = Monitor(given.jepmon, failed=(ConnectionRefusedError, RedisError), expected=(OSError,), unknown="drop", out=given.out)
    keys = monitor.keys(KEYS)
    try:
        with monitor, Server(keep=given.keep) as server:

            def work(number: int) -> None:
                if number == CLIENTS:
                    kill_each_second(monitor, server, end)
                else:
                    client(monitor, keys, number, values, server.at, end)

            monitor.run(work, CLIENTS + 1)
            for key in keys.used:  # now that the faults are over
                read(monitor, Client(server.at), key)
    except JepmonError as found:
        print(f"{monitor.length} events: {found}")
        return found.status
    print(f"{monitor.length} events, {len(keys.used)} keys: {monitor.close()}")
    return 2 if monitor.set_aside else 0


if __name__ == "__main__":
    sys.exit(status_of(main))
