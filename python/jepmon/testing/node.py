"""A node: one server process, or a family of them, with a folder, ports and a log of its own. It may be killed, paused and started."""
from __future__ import annotations

import contextlib
import os
import pathlib
import random
import socket
import subprocess
import threading
import time
from typing import IO, TYPE_CHECKING, Callable, Dict, List, Optional, Sequence, Tuple, Union

from .errors import Died, ServerError
from .family import MARK, adopt, bury, continue_family, kill_family, kill_strays, stop_family
from .undisturbed import undisturbed

if TYPE_CHECKING:
    from .guard import Guard
    from .places import Place

ADDRESS = "127.0.0.1"
At = Tuple[str, int]
GLANCE = 0.1  # seconds between two looks
LAST_LINES = 3  # an error shows this many last lines of a log
# Texts in a log that say why the system can't do something.
TELLING = ("no space left on device", "disk quota exceeded", "read-only file system", "unable to write", "address already in use",
           "permission denied", "cannot allocate memory", "out of memory", "too many open files")
AGAIN = "--- started again\n"  # the line in a log at a restart
ELSEWHERE = 2.0  # if a server listens at another address for this many seconds, it will not listen at its own address any more


class Node:
    """`address` is the node's address. `ports` are the ports at which the server listens there, by the names in its Server class. `reach`
    has the ports at which others reach the node, through the link that can be cut, if there is one. `folder` is for its data, and stays
    when the node is killed."""

    def __init__(self, number: int, folder: pathlib.Path, log: pathlib.Path, ports: Dict[str, int], guard: Guard) -> None:
        self.number, self.name, self.folder, self.log, self.ports = number, f"n{number + 1}", folder, log, ports
        self.address = ADDRESS
        self.reach = dict(ports)
        self.place: Optional[Place] = None  # its network namespace, if it has one
        self.user: Optional[str] = None  # the user who runs it, if this must not be root
        self.environment: Dict[str, str] = {}
        self.preloaded: Dict[str, str] = {}  # variables of the environment that the test itself sets
        self.words: List[str] = []
        self.starts = 0  # the number of its starts
        self._mark = str(folder)
        self._guard = guard
        self._process: Optional["subprocess.Popen[bytes]"] = None
        self._lock = threading.RLock()

    @property
    def port(self) -> int:
        """The port at which clients reach it."""
        return self.reach["client"]

    @property
    def at(self) -> At:
        """The address and the port at which clients reach it."""
        return self.address, self.port

    @property
    def listens_at(self) -> At:
        """The address at which the node listens to clients. Only a process in its namespace reaches this address in spite of all faults on
        links."""
        return self.address, self.ports["client"]

    def inside(self) -> "contextlib.AbstractContextManager[None]":
        """Moves this thread into the node's namespace, where it reaches the node in spite of all faults on links."""
        return contextlib.nullcontext() if self.place is None else self.place.inside()

    @property
    def pid(self) -> Optional[int]:
        return self._process.pid if self._process is not None else None

    # --- Its process ---

    def start(self) -> None:
        """Starts the node. Some time may pass until it answers."""
        with self._lock, open(self.log, "ab") as log, self.inside():
            log.write(AGAIN.encode() if self.starts else b"")
            log.flush()
            try:
                with undisturbed():
                    self._process = process = begun(as_user(self.user, self.words), log, self.folder, {
                        **os.environ, **self.environment, **self.preloaded, MARK: self._mark})
                    self._guard.watch(process.pid)
            except OSError as fault:
                raise ServerError(f"{self.name} can't be started: {self.words[0]}: {fault.strerror}") from fault
            self.starts += 1

    def kill(self) -> None:
        """Kills all processes of the node at once by SIGKILL, so that none can write any more."""
        with self._lock:
            if self._process is not None:
                had_ended = self._process.poll() is not None
                _, *orphans = kill_family(self._process.pid)
                self._process.wait()
                bury(orphans)
                if had_ended:
                    kill_strays(self._mark)
                self._guard.leave(self._process.pid)
                self._process = None

    def completed(self, words: Sequence[str]) -> None:
        """Runs a program to its end as the node's user, such as a program that prepares the folder. Its output is written to the log."""
        completed(words, self.log, self.user, guard=self._guard)

    def pause(self) -> None:
        with self._lock:
            if self._process is not None:
                stop_family(self._process.pid)

    def go_on(self) -> None:
        with self._lock:
            if self._process is not None:
                continue_family(self._process.pid)

    def test_alive(self) -> None:
        """Raises if the process has ended by itself."""
        with self._lock:
            status = self._process.poll() if self._process is not None else None
        if status is not None:
            raise Died(self.name, f"has died by itself, {ended(status)}", self.log, self.said())

    # --- Waiting ---

    def wait_until(self, ready: Callable[[], object], seconds: float, what: str, stopped: Optional[threading.Event] = None) -> None:
        """Calls the function until it does not raise. Raises if the time is up, or if the node has died."""
        begun = time.monotonic()
        while True:
            self.test_alive()
            try:
                ready()
                return
            except Exception as fault:  # after any exception the node is not ready
                if time.monotonic() > begun + seconds:
                    raise ServerError(f"{self.name} {what} for {seconds:g} s ({one_line(fault)}){self.said()}") from fault
                if time.monotonic() > begun + ELSEWHERE:
                    self._test_address()
            if stopped is not None and stopped.is_set():
                return
            time.sleep(GLANCE)

    def _test_address(self) -> None:
        """Raises if the node listens to clients only at the loopback of its network namespace, where no client reaches it. At other ports
        it may speak to itself."""
        if "client" in self.ports and listens((ADDRESS, self.ports["client"])) and not listens(self.listens_at):
            raise ServerError(f"{self.name} listens at {ADDRESS}, port {self.ports['client']}, where nobody else reaches it in its network "
                              f"namespace: let it listen at node.address, which is {self.address}, or use --network proxy")

    def accepts(self, name: str = "client") -> None:
        """Raises an OSError if the node does not listen at this port."""
        socket.create_connection((self.address, self.ports[name]), 1.0).close()

    def write_log(self, text: str) -> None:
        """Writes into the node's log an action of the test on the node."""
        with open(self.log, "a", encoding="utf-8") as log:
            log.write(f"--- {text}\n")

    def said(self) -> str:
        """Returns the path and the last lines of the node's log, for an error."""
        try:
            lines = self.log.read_text(errors="replace").split("\n")
        except OSError:
            lines = []
        return f"; its log is {self.log}, which {last_words(lines)}"


def as_user(user: Optional[str], words: Sequence[str]) -> List[str]:
    """The words that run a program as this user, if it is root who starts it."""
    given_up = [] if user is None or os.geteuid() != 0 else ["setpriv", f"--reuid={user}", f"--regid={user}", "--clear-groups", "--"]
    return [*given_up, *words]


def last_words(lines: Sequence[str]) -> str:
    """The last line of a log in which the system says why something can't be done. A server may print such a line long before it ends.
    Without such a line, the end of the log."""
    said = [line.strip()[:160] for line in lines if line.strip()]
    telling = [line for line in said if any(words in line.lower() for words in TELLING)]
    if telling and telling[-1] not in said[-LAST_LINES:]:
        return f"says: {telling[-1]}"
    return f"ends: {' | '.join(said[-LAST_LINES:])}" if said else "is empty"


def listens(at: At) -> bool:
    try:
        socket.create_connection(at, 1.0).close()
        return True
    except OSError:
        return False


def ended(status: int) -> str:
    return f"by signal {-status}" if status < 0 else f"with status {status}"


def one_line(fault: BaseException) -> str:
    return " ".join(f"{type(fault).__name__}: {fault}".split())[:200].rstrip(": ")


class Ports:
    """Free ports below the ports of outgoing connections. An outgoing connection could otherwise get the port of a server that is down,
    even the connection with which a client tries to reach this server."""

    def __init__(self, draws: random.Random) -> None:
        self._draws = draws
        self._given: List[int] = []
        self._from, self._to = 10_000, lowest_outgoing()

    def free(self) -> int:
        for _ in range(1000):
            port = self._draws.randrange(self._from, self._to)
            if port not in self._given and is_free(port):
                self._given.append(port)
                return port
        raise ServerError(f"no port of 1000 from {self._from} to {self._to} is free on this machine")


def lowest_outgoing() -> int:
    try:
        lowest = int(pathlib.Path("/proc/sys/net/ipv4/ip_local_port_range").read_text().split()[0])
    except (OSError, ValueError, IndexError):
        return 32_768
    return lowest if lowest > 12_000 else 65_536


def is_free(port: int) -> bool:
    with socket.socket() as probe:
        probe.setsockopt(socket.SOL_SOCKET, socket.SO_REUSEADDR, 1)
        try:
            probe.bind((ADDRESS, port))
            return True
        except OSError:
            return False


def begun(words: Sequence[str], log: IO[bytes], folder: Union[str, pathlib.Path], environment: Dict[str, str]) -> "subprocess.Popen[bytes]":
    """Starts a process of a server, in a session of its own. The process adopts the orphans below it."""
    return subprocess.Popen(words, stdin=subprocess.DEVNULL, stdout=log, stderr=subprocess.STDOUT, start_new_session=True, cwd=folder,
                            env=environment, preexec_fn=adopt)


def completed(words: Sequence[str], log: pathlib.Path, user: Optional[str] = None, environment: Optional[Dict[str, str]] = None,
              guard: Optional[Guard] = None) -> None:
    """Runs a program to its end, such as a program that prepares a server's folder. Its output is written to the log. If the test ends
    earlier, the program ends too, with all its processes."""
    process: Optional["subprocess.Popen[bytes]"] = None
    try:
        with open(log, "ab") as file, undisturbed():
            process = begun(as_user(user, words), file, "/", {**os.environ, **(environment or {})})
            if guard is not None:
                guard.watch(process.pid)
        status = process.wait()
    except OSError as fault:
        raise ServerError(f"{words[0]} can't be started: {fault.strerror}") from fault
    except BaseException:
        if process is not None:
            _, *orphans = kill_family(process.pid)
            process.wait()
            bury(orphans)
        raise
    if guard is not None:
        guard.leave(process.pid)
    if status != 0:
        text = last_words(log.read_text(errors="replace").split("\n"))
        raise ServerError(f"{os.path.basename(words[0])} ended {ended(status)}; its log is {log}, which {text}")
