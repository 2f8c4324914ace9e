"""PostgreSQL: a primary, and its standbys. Rows are registers, at an isolation level. There are also advisory locks, and a queue by SKIP
LOCKED.

The meaning of errors: with a connection that was refused, or is not ready (the server starts, 57P03), nothing was sent. An ERROR as an
answer says that the server rolled the transaction back, for example after a serialization failure (40001). Both are a :fail. A timeout, a
cut connection, and the message with which the server ends a session are an :info, since a COMMIT may have been done before.
"""
from __future__ import annotations

import os
import pathlib
import pwd
import shutil
from typing import Dict, List, Optional, Sequence, Type

from ...live.outcome_rules import Exceptions
from ..errors import ServerError
from ..node import At, Node
from ..server import Client, Plant, Server
from ..wire.postgres import Postgres, SqlError

TIMEOUT = 0.7  # seconds
USER = "postgres"
VERSIONS = pathlib.Path("/usr/lib/postgresql")
TABLES = "CREATE TABLE r (k int PRIMARY KEY, v bigint); CREATE TABLE q (id bigserial PRIMARY KEY, k int, v bigint)"


class SqlClient(Client):
    certain: Exceptions = (ConnectionRefusedError, SqlError)

    def __init__(self, at: At, read_at: At) -> None:
        self.sql, self.reads = Postgres(at, USER, TIMEOUT), Postgres(read_at, USER, TIMEOUT)

    def close(self) -> None:
        self.sql.close()
        self.reads.close()


class Register(SqlClient):
    isolation = "SERIALIZABLE"

    def read(self, key: int) -> Optional[int]:
        return integer(self.reads.query(f"SELECT v FROM r WHERE k = {key}").rows)

    def write(self, key: int, value: int) -> None:
        self.sql.query(f"INSERT INTO r VALUES ({key}, {value}) ON CONFLICT (k) DO UPDATE SET v = excluded.v")

    def cas(self, key: int, old: int, new: int) -> bool:
        """A cas in the way of an application: it reads, compares, and changes, in one transaction."""
        try:
            begin = f"BEGIN ISOLATION LEVEL {self.isolation}; SELECT v FROM r WHERE k = {key}"
            if integer(self.sql.query(begin).rows) != old:
                self.sql.query("ROLLBACK")
                return False
            self.sql.query(f"UPDATE r SET v = {new} WHERE k = {key}; COMMIT")
            return True
        except SqlError:
            self.sql.close()  # this also ends the transaction
            raise


class ReadCommitted(Register):
    isolation = "READ COMMITTED"


class OldSnapshot(Register):
    """Registers in which several reads are in one transaction, and so use one snapshot."""

    count = 0

    def read(self, key: int) -> Optional[int]:
        if self.count % 5 == 0 or not self.reads.stream.is_open:
            self.reads.query("COMMIT; BEGIN ISOLATION LEVEL REPEATABLE READ")
        self.count += 1
        return super().read(key)


class Queue(SqlClient):
    def enqueue(self, key: int, value: int) -> None:
        self.sql.query(f"INSERT INTO q (k, v) VALUES ({key}, {value})")

    def dequeue(self, key: int) -> Optional[int]:
        first = f"SELECT id FROM q WHERE k = {key} ORDER BY id LIMIT 1 FOR UPDATE SKIP LOCKED"
        return integer(self.sql.query(f"DELETE FROM q WHERE id = ({first}) RETURNING v").rows)


class UnlockedQueue(Queue):
    def dequeue(self, key: int) -> Optional[int]:
        value = integer(self.sql.query(f"SELECT v FROM q WHERE k = {key} ORDER BY id LIMIT 1").rows)
        if value is not None:
            self.sql.query(f"DELETE FROM q WHERE k = {key} AND v = {value}")
        return value


class Lock(SqlClient):
    """An advisory lock, which belongs to its session. A release is an ok or an :info: if the session is gone, the server releases the lock
    when it notices this."""

    def acquire(self, key: int) -> bool:
        taken = self.sql.query(f"SELECT pg_try_advisory_lock({key})").rows == [("t",)]
        self.session = self.sql.connected
        return taken

    def release(self, key: int) -> bool:
        if self.sql.connected != self.session or not self.sql.stream.is_open:
            raise ConnectionError("the session that held the lock is gone")
        try:
            return self.sql.query(f"SELECT pg_advisory_unlock({key})").rows == [("t",)]
        except SqlError as fault:
            raise ConnectionError(str(fault)) from fault


class LongLock(Lock):
    work = 4.0


CLIENTS: Dict[str, Type[SqlClient]] = {"cas-register": Register, "register": Register, "mutex": Lock, "unordered-queue": Queue}
PLANTED: Dict[str, Type[SqlClient]] = {"read-committed": ReadCommitted, "snapshot": OldSnapshot, "unlocked": UnlockedQueue,
                                       "session": LongLock}


class PostgreSQL(Server):
    objects = CLIENTS
    bears = {"mutex": ("pause", "cut", "slow", "loss", "reorder", "corrupt")}  # a kill ends each session and its locks, while the holders still work
    sizes, in_turn, survives_power = range(1, 4), True, True
    # The server restarts a crashed process of its own, so only the log shows the crash.
    crashes = (r"process \(PID [0-9]+\) was terminated by signal", r"\bPANIC:  ", r"\bTRAP: ", r"invalid page in block [0-9]+ of relation")
    durabilities = {"sync": "each commit is synced before it is answered (the default)",
                    "async": "synchronous_commit=off: a commit is answered before it is written", "none": "fsync=off: nothing is synced"}
    plants = {
        "read-committed": Plant("a cas that reads, compares and changes at READ COMMITTED", "cas-register"),
        "snapshot": Plant("reads of one REPEATABLE READ transaction that goes on", "register"),
        "standby": Plant("reads at a standby, which may be some writes behind", "register", nodes=2),
        "unlocked": Plant("a message is read and then deleted, without a lock", "unordered-queue"),
        "session": Plant("the server is killed, and the lock's session with it, while its holder works", "mutex", "kill:n1"),
    }

    @classmethod
    def test_installed(cls) -> None:
        if binaries() is None:
            raise ServerError("PostgreSQL is not installed: on Debian, apt-get install postgresql")

    @classmethod
    def version(cls) -> Sequence[str]:
        return (program("postgres"), "--version")

    def prepare(self, node: Node) -> None:
        node.user = user()
        if os.geteuid() == 0:
            shutil.chown(node.folder, node.user)
        data, primary = str(node.folder / "data"), self.nodes[0]
        if node.number == 0:
            words = [program("initdb"), "-D", data, "-U", USER, "-A", "trust", "-N"]
        else:
            words = [program("pg_basebackup"), "-h", primary.address, "-p", str(primary.port), "-U", USER, "-D", data, "-R", "-X", "stream",
                     "-c", "fast", "--no-sync"]
        node.completed(words)
        if node.number == 0:
            with open(node.folder / "data" / "pg_hba.conf", "a", encoding="utf-8") as rules:
                rules.write("host all,replication all samenet trust\n")

    def command(self, node: Node) -> List[str]:
        settings = {"fsync": "off" if self.durability == "none" else "on",
                    "synchronous_commit": "off" if self.durability == "async" else "on", "max_connections": "100", "listen_addresses": node.address,
                    "unix_socket_directories": str(node.folder), "lc_messages": "C",
                    "wal_receiver_timeout": "5s"}
        return [program("postgres"), "-D", str(node.folder / "data"), "-p", str(node.ports["client"]),
                *(word for name, value in settings.items() for word in ("-c", f"{name}={value}"))]

    def ready(self, node: Node) -> None:
        self.ask(node, "SELECT 1")
        if node.number and not self.ask(node, "SELECT 1 FROM pg_stat_wal_receiver WHERE status = 'streaming'"):
            raise ServerError("it does not follow its primary")

    def begun(self) -> None:
        self.ask(self.nodes[0], TABLES)

    def ask(self, node: Node, text: str) -> object:
        sql = Postgres(node.listens_at, USER, 5.0)
        try:
            return sql.query(text).rows
        finally:
            sql.close()

    def client(self, number: int) -> Client:
        read_at = self.nodes[-1 if self.plant == "standby" else 0]
        return PLANTED.get(self.plant, CLIENTS[self.model])(self.nodes[0].at, read_at.at)

    def reader(self, node: Node) -> Optional[Client]:
        is_own = self.objects[self.model] is CLIENTS.get(self.model)  # a subclass with another client has its own reader
        return CLIENTS[self.model](node.at, node.at) if is_own else None

    def node_of(self, number: int) -> Node:
        return self.nodes[0]


def integer(rows: "list[tuple[Optional[str], ...]]") -> Optional[int]:
    """The value of the one field of the one row, if there is one."""
    return int(rows[0][0]) if rows and rows[0][0] is not None else None


def user() -> str:
    """Returns a user for the server, since PostgreSQL refuses to run as root."""
    for name in (USER, "nobody"):
        try:
            return pwd.getpwnam(name).pw_name
        except KeyError:
            pass
    raise ServerError("PostgreSQL does not run as root, and there is neither a user postgres nor a user nobody")


def binaries() -> Optional[pathlib.Path]:
    """The folder of the newest version."""
    found = [path for path in VERSIONS.glob("*/bin") if (path / "postgres").exists() and (path / "initdb").exists()]
    on_path = shutil.which("postgres")
    if found:
        return max(found, key=lambda path: [int(part) for part in path.parent.name.split(".") if part.isdigit()])
    return pathlib.Path(os.path.realpath(on_path)).parent if on_path else None


def program(name: str) -> str:
    return str((binaries() or pathlib.Path()) / name)
