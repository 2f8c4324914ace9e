"""A redis-server of its own for an example, on a free port of this machine alone, and a client of it. It needs `redis-server`
on the PATH. `jepmon-test redis` does more: this is what a test of your own begins with.

    with Server() as primary, Server(primary) as replica:
        client = Client(primary.at)
        client.call("SET", "x", 5)
        client.call("GET", "x")                      # b"5"
"""
import shutil
import socket
import subprocess
import sys
import tempfile
import time
import traceback
from types import TracebackType
from typing import Callable, Optional, Type

from jepmon.testing.node import At
from jepmon.testing.wire.resp import Redis as Client
from jepmon.testing.wire.resp import RedisError

__all__ = ["At", "Client", "NotInstalled", "RedisError", "Server", "status_of"]

ADDRESS = "127.0.0.1"


class NotInstalled(Exception):
    """There is no redis-server on the PATH."""


class Server:
    """A redis-server, a replica where another one is named. It keeps nothing on the disk, unless it is to keep each command there
    before it answers. It ends with its block, and may be killed and started again in it."""

    def __init__(self, primary: Optional["Server"] = None, keep: bool = False) -> None:
        if shutil.which("redis-server") is None:
            raise NotInstalled("redis-server is not installed")
        self.port = free_port()
        self.at = ADDRESS, self.port
        self.folder = tempfile.TemporaryDirectory()
        self.words = ["redis-server", "--port", str(self.port), "--bind", ADDRESS, "--save", "", "--dir", self.folder.name,
                      "--appendonly", "yes" if keep else "no", "--appendfsync", "always", "--repl-diskless-sync-delay", "0"]
        if primary is not None:
            self.words += ["--replicaof", ADDRESS, str(primary.port)]
        self.wanted = b"role:master" if primary is None else b"master_link_status:up"
        self.start()

    def start(self) -> None:
        self.process = subprocess.Popen(self.words, stdout=subprocess.DEVNULL, start_new_session=True)
        self.wait_until_ready()

    def kill(self) -> None:
        """By SIGKILL, so that it can't write anything down any more."""
        self.process.kill()
        self.process.wait()

    def wait_until_ready(self) -> None:
        """Until it answers, and where it is a replica has what its primary has."""
        for _ in range(200):
            if self.is_ready():
                return
            time.sleep(0.05)
        self.stop()
        raise TimeoutError("redis-server is not ready")

    def is_ready(self) -> bool:
        try:
            return self.wanted in Client(self.at).call("INFO", "replication")
        except (OSError, RedisError):
            return False

    def stop(self) -> None:
        self.process.terminate()
        self.process.wait()
        self.folder.cleanup()

    def __enter__(self) -> "Server":
        return self

    def __exit__(
        self, kind: Optional[Type[BaseException]], error: Optional[BaseException], trace: Optional[TracebackType]
    ) -> None:
        self.stop()


def free_port() -> int:
    with socket.socket() as probe:
        probe.bind((ADDRESS, 0))
        return int(probe.getsockname()[1])


def status_of(example: Callable[[], int]) -> int:
    """The exit status of an example: its own, and 3 where it could not judge, with the reason on standard error."""
    try:
        return example()
    except (NotInstalled, FileNotFoundError) as fault:
        print(f"{sys.argv[0]}: {fault}", file=sys.stderr)
    except Exception:
        traceback.print_exc()
    return 3
