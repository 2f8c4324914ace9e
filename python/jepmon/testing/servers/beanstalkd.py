"""beanstalkd: one node, which writes each job to a log. A tube is an unordered queue, which delivers at least once. If a job was not
deleted before its connection ended, or within five seconds, it comes again. So a dequeue takes place when a job comes for the first time.

The meaning of errors: if there is no connection yet, or it has not selected the tube, nothing was sent, which is a :fail. An answer that
the job was not inserted is a :fail too. A job without an answer may have been inserted, which is an :info. A job that the client did not
get is a :fail, since it comes again.
"""
from __future__ import annotations

from typing import List, Optional

from ...live.outcome_rules import Exceptions
from ...live.verdicts import Failed
from ..came import Came
from ..node import At, Node
from ..server import Client, Plant, Server
from ..wire.streams import Stream

TIMEOUT, AGAIN = 1.0, 5  # seconds
SYNCS = {"sync": ["-f", "0"], "interval": ["-f", "50"], "none": ["-F"]}  # the arguments of each durability


class Queue(Client):
    certain: Exceptions = (ConnectionRefusedError,)

    def __init__(self, at: At, came: Came) -> None:
        self.stream, self.came = Stream(at, TIMEOUT), came
        self.used: Optional[int] = None  # the key whose tube jobs are sent to
        self.watched: Optional[int] = None  # the key whose tube jobs come from

    def enqueue(self, key: int, value: int) -> None:
        self.on_tube(key)
        data = str(value).encode()
        answer = self.ask(f"put 10 0 {AGAIN} {len(data)}", data)
        if answer[0] != "INSERTED":
            raise Failed(" ".join(answer))

    def on_tube(self, key: int) -> None:
        """Selects the tube of a key. Nothing of the job is sent yet."""
        try:
            if self.opened() or self.used != key:
                self.ask(f"use q{key}")
                self.used = key
        except OSError as fault:
            raise Failed(str(fault)) from fault

    def dequeue(self, key: int) -> Optional[int]:
        try:
            number, value = self.reserved(key)
        except OSError as fault:
            raise Failed(str(fault)) from fault
        if value is None:
            return None
        is_first = self.came.first(value)
        try:
            self.ask(f"delete {number}")
        except OSError:
            pass  # the job comes again
        if not is_first:
            raise Failed("it has come before")
        return value

    def reserved(self, key: int) -> "tuple[str, Optional[int]]":
        if self.opened() or self.watched != key:
            self.ask(f"watch q{key}")
            self.ask("ignore default" if self.watched is None else f"ignore q{self.watched}")
            self.watched = key
        answer = self.ask("reserve-with-timeout 0")
        if answer[0] == "TIMED_OUT":
            return "", None
        if answer[0] != "RESERVED":
            raise Failed(" ".join(answer))
        data = self.stream.exactly(int(answer[2]) + 2)
        return answer[1], int(data)

    def opened(self) -> bool:
        """Opens the connection if there is none. Returns whether it has opened one."""
        if self.stream.is_open:
            return False
        self.used = self.watched = None
        self.stream.open()
        return True

    def ask(self, text: str, data: Optional[bytes] = None) -> List[str]:
        try:
            self.stream.begin()
            self.stream.send(text.encode() + b"\r\n" + (b"" if data is None else data + b"\r\n"))
            return self.stream.line().decode().split()
        except OSError:
            self.close()
            raise

    def close(self) -> None:
        self.stream.close()


class Beanstalkd(Server):
    programs = {"beanstalkd": "beanstalkd"}
    objects = {"unordered-queue": Queue}
    sizes, survives_power = range(1, 2), True
    durabilities = {"sync": "each job is synced before it is acknowledged", "interval": "the log is synced each 50 ms (the default)",
                    "none": "the log is never synced"}
    plants = {"forgetful": Plant("the server keeps nothing on its disk", "unordered-queue", "kill")}

    def __init__(self, *words: object) -> None:
        super().__init__(*words)  # type: ignore[arg-type]
        self.came = Came()

    def prepare(self, node: Node) -> None:
        (node.folder / "log").mkdir()

    def command(self, node: Node) -> List[str]:
        log = [] if self.plant == "forgetful" else ["-b", str(node.folder / "log"), *SYNCS[self.durability]]
        return ["beanstalkd", "-l", node.address, "-p", str(node.ports["client"]), *log]

    def client(self, number: int) -> Client:
        return Queue(self.nodes[0].at, self.came)
