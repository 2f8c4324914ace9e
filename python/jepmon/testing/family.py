"""A process and all processes that it has started: servers like PostgreSQL and RabbitMQ are many processes, each in a session of its own.

A process that forks twice leaves its child without a parent. On Linux the nearest process above that adopts (a child subreaper) gets such
an orphan. So a server's first process adopts, and its orphans stay in its family. The test adopts the orphans of a server that has ended by
itself.
"""
from __future__ import annotations

import contextlib
import ctypes
import os
import pathlib
import signal
from typing import Dict, List

ROUNDS = 8  # a family that forks is stopped in at most this many rounds
ADOPTS = 36  # PR_SET_CHILD_SUBREAPER
MARK = "JEPMON_NODE"  # the environment of each process of a node has this variable
PROCESS = getattr(ctypes.CDLL(None), "prctl", None)  # a call of Linux; looked up here, and not between a fork and an exec


def adopt() -> None:
    """Makes this process adopt orphans below it from now on, also after an exec."""
    if PROCESS is not None:
        PROCESS(ADOPTS, 1, 0, 0, 0)


def strays(mark: str) -> List[int]:
    """The processes that this process has adopted, with this mark in their environment."""
    return [pid for pid in family(os.getpid())[1:] if parent_of(pid) == os.getpid() and f"{MARK}={mark}" in environment_of(pid)]


def environment_of(pid: int) -> List[str]:
    try:
        return pathlib.Path(f"/proc/{pid}/environ").read_text(errors="replace").split("\0")
    except OSError:
        return []


def kill_strays(mark: str) -> None:
    for pid in strays(mark):
        bury(kill_family(pid))


def bury(killed: List[int]) -> None:
    """Waits for those of these processes that this process has adopted. Until then they stay in the table of processes."""
    for pid in killed:
        with contextlib.suppress(ChildProcessError):
            os.waitpid(pid, 0)


def family(pid: int) -> List[int]:
    """The process and all its descendants, parents first."""
    children: Dict[int, List[int]] = {}
    for name in os.listdir("/proc"):
        if name.isdigit():
            children.setdefault(parent_of(int(name)), []).append(int(name))
    found = [pid]
    for member in found:
        found += children.get(member, [])
    return found


def parent_of(pid: int) -> int:
    """Returns the parent of a process, or -1 if there is no such process."""
    try:
        with open(f"/proc/{pid}/stat", encoding="ascii", errors="replace") as file:
            return int(file.read().rpartition(")")[2].split()[1])
    except (OSError, IndexError, ValueError):
        return -1


def stop_family(pid: int) -> List[int]:
    """Stops each process of the family (SIGSTOP) before any of them can start another one."""
    members: List[int] = []
    for _ in range(ROUNDS):
        found = family(pid)
        if found == members:
            break
        members = found
        _send(members, signal.SIGSTOP)
    return members


def continue_family(pid: int) -> None:
    """Continues each process of the family, children first, since a parent might react to stopped children."""
    _send(list(reversed(family(pid))), signal.SIGCONT)


def kill_family(pid: int) -> List[int]:
    """Kills all processes of the family (SIGKILL) at about the same moment. Returns the process and its descendants."""
    members = stop_family(pid)
    _send(members, signal.SIGKILL)
    return members


def _send(pids: List[int], number: signal.Signals) -> None:
    for pid in pids:
        try:
            os.kill(pid, number)
        except (ProcessLookupError, PermissionError):
            pass
