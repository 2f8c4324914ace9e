"""`jepmon-test`: real servers under real faults, judged live by the proved program; and the classes for a server of your own.

    from jepmon.testing import Client, Server        # as in template.py, which `jepmon-test template` prints

server.py   the base class of a server; servers/ has Redis, etcd, PostgreSQL, RabbitMQ, ZooKeeper and
            beanstalkd, and wire/ their protocols
cluster.py  the nodes (node.py), and the links between them (links.py: switch.py and places.py, or proxy.py)
guard.py    leaves no process behind; undisturbed.py lets Ctrl-C wait until this is done
strikes/    the faults, and their times; needs.py tests what the machine must have for them
after.py    reads the bad key again after a finding; losses.py lists lost data, and crashes.py finds crashes
facts.py    the facts about a test in the run's folder, and the pages at its end
run.py      a whole test: workloads.py has the operations of clients, generators.py their times
"""
from __future__ import annotations

from typing import List, Optional

from ..live.verdicts import Failed
from .came import Came
from .errors import ServerError
from .node import Node
from .server import Client, Leases, Plant, Server
from .strikes.kind import Parameter, Strike
from .workloads import Work

__all__ = ["Came", "Client", "Failed", "Leases", "Node", "Parameter", "Plant", "Server", "ServerError", "Strike", "Work", "main"]


def main(words: Optional[List[str]] = None) -> int:
    from .tool import main as test

    return test(words)
