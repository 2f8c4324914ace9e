"""Wall clocks of single nodes. The test compiles a small library at its start and preloads it into the node's processes. The library adds a
number of seconds, which is in a file, to the time that the C library returns. It has an effect on programs that ask the C library for the
time, such as Redis, PostgreSQL, and programs in Erlang and Java. It has no effect on programs that ask the kernel directly, such as
programs in Go, nor statically linked programs. The monotonic clock is unchanged: people set the wall clocks of machines, and timeouts use
the monotonic clock. (A time namespace of Linux shifts only the monotonic clock, and not the wall clock.)
"""
from __future__ import annotations

import os
import pathlib
import shutil
import struct
import subprocess
import threading
from typing import TYPE_CHECKING, Optional

from .errors import ServerError
from .family import family

if TYPE_CHECKING:
    from .node import Node

COMPILERS = ("cc", "gcc", "clang")
VARIABLE = "JEPMON_CLOCK"
SOURCE = r"""
#define _GNU_SOURCE
#include <fcntl.h>
#include <stdlib.h>
#include <sys/mman.h>
#include <sys/syscall.h>
#include <sys/time.h>
#include <time.h>
#include <unistd.h>
static const volatile double *ahead;
__attribute__((constructor)) static void begin(void) {
  const char *name = getenv("JEPMON_CLOCK");
  int file = name ? open(name, O_RDONLY | O_CLOEXEC) : -1;
  void *found = file < 0 ? MAP_FAILED : mmap(NULL, sizeof *ahead, PROT_READ, MAP_SHARED, file, 0);
  if (file >= 0) close(file);
  if (found != MAP_FAILED) ahead = found;
}
static int told(clockid_t clock, struct timespec *time) {
  int status = syscall(SYS_clock_gettime, clock, time);
  if (status == 0 && ahead && (clock == CLOCK_REALTIME || clock == CLOCK_REALTIME_COARSE)) {
    long long all = time->tv_sec * 1000000000LL + time->tv_nsec + (long long)(*ahead * 1e9);
    time->tv_sec = all / 1000000000, time->tv_nsec = all % 1000000000;
  }
  return status;
}
int clock_gettime(clockid_t clock, struct timespec *time) { return told(clock, time); }
int gettimeofday(struct timeval *restrict value, void *restrict zone) {
  struct timespec time;
  (void)zone, told(CLOCK_REALTIME, &time);
  value->tv_sec = time.tv_sec, value->tv_usec = time.tv_nsec / 1000;
  return 0;
}
time_t time(time_t *at) {
  struct timespec time;
  told(CLOCK_REALTIME, &time);
  if (at) *at = time.tv_sec;
  return time.tv_sec;
}
"""


class Clock:
    """The clock of one node. It is ahead of this machine's clock by some seconds, or behind it if the number is negative."""

    def __init__(self, node: Node, library: pathlib.Path) -> None:
        self._file = node.folder.parent / f"{node.name}.clock"
        self._file.write_bytes(struct.pack("d", 0.0))
        self._file.chmod(0o644)
        self._lock, self._library = threading.Lock(), str(library)
        node.preloaded = {"LD_PRELOAD": str(library), VARIABLE: str(self._file)}

    def set_ahead(self, seconds: float) -> None:
        with self._lock, open(self._file, "r+b", buffering=0) as file:
            file.write(struct.pack("d", seconds))

    def test_reached(self, node: Node) -> None:
        """Raises if no process of the node has the library, since a strike would have no effect."""
        pids = [] if node.pid is None else family(node.pid)
        if pids and not any(self._library in maps(pid) for pid in pids):
            raise ServerError(f"the clock of {node.name} can't be set: its program does not load a preloaded library (is it linked statically?)")


def maps(pid: int) -> str:
    try:
        return pathlib.Path(f"/proc/{pid}/maps").read_text(errors="replace")
    except OSError:
        return ""


def compiled(folder: pathlib.Path) -> pathlib.Path:
    """Compiles the library, and returns its path."""
    source, library = folder / "clock.c", folder / "clock.so"
    source.write_text(SOURCE)
    ran = subprocess.run([compiler() or COMPILERS[0], "-O2", "-shared", "-fPIC", str(source), "-o", str(library)], stdin=subprocess.DEVNULL,
                         stdout=subprocess.PIPE, stderr=subprocess.STDOUT, universal_newlines=True)
    if ran.returncode != 0:
        raise ServerError(f"the library of clocks can't be compiled: {' '.join(ran.stdout.split())[:300]}")
    library.chmod(0o755)
    return library


def compiler() -> Optional[str]:
    found = [path for path in (shutil.which(name) for name in COMPILERS) if path is not None]
    return found[0] if found else None


def why_not() -> Optional[str]:
    """The reason for which no clock can be set here; None if one can."""
    if os.uname().sysname != "Linux":
        return "clocks of nodes are set on Linux alone"
    return None if compiler() else f"it needs a compiler of C, of {', '.join(COMPILERS)}: on Debian, apt-get install gcc libc6-dev"
