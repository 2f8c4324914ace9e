#!/usr/bin/env python3
"""Runs jepmon-test on real servers. Each runs under faults for 20 seconds, which must be legal; each under strikes on its clocks, if they
can be set, and under its own strikes. Each planted fault runs until it is found, and each looser durability until a loss of power shows it.
It ends with 'N passed, M failed', or 'N passed, M failed, K skipped' where a server is not installed (tests/setup installs them). With
arguments, it runs the tests of these servers alone, as redis; an argument like redis/lease names one test. OWN names files of examples/.
"""
from __future__ import annotations

import concurrent.futures
import os
import pathlib
import shutil
import subprocess
import sys
import tempfile
from typing import List, NamedTuple, Optional, Tuple, Type

TOP = pathlib.Path(__file__).resolve().parent.parent
sys.path.insert(0, str(TOP / "python"))

from jepmon.testing import Server, ServerError, clocks, disks, places  # noqa: E402
from jepmon.testing.cli_options import SERVERS, server_of  # noqa: E402
from program import PROGRAM  # noqa: E402

SECONDS, UNTIL_FOUND = 20, 120
NONE = 3  # the status of what came to no verdict
GOOD = (0, 2)  # on a busy machine so many operations may time out at once that a key is unknown
PATIENT = ["--min-ok", "3", "--startup-timeout", "600"]
PATIENCE = 1800.0  # seconds, on a busy machine
COUNTED = [("rabbitmq", "early")]
# Found only if a client reads at a server that is cut off and does not know it yet: seldom, where operations are slow.
SELDOM = [("zookeeper", "own")]
# Once in some fifty runs a node has diverged for good, after a loss of power beside other strikes: the verdict was right.
DIVERGES = [("zookeeper", "register")]
# beanstalkd syncs by its wall clock: once that was set back, it acknowledges what it has not synced, and a loss of power loses it.
CLOCKED = {"beanstalkd": "kill,pause,cut,slow,bump,strobe"}
FILES = {"redis": {"failover": "examples/python/redis_failover.py"}}  # servers that are wrong
OWN = {"tarantool": str(TOP / "examples" / "python" / "tarantool_server.py")}  # servers whose file is a user's
CLUSTERS = {"rabbitmq": "3"}  # servers that are one node, unless more are asked for
AT_ONCE = 2  # tests; each of them mostly waits


class Test(NamedTuple):
    server: str
    what: str  # an object, a planted fault, a durability, `clocks`, `own` strikes, a `cluster` or `proxy`
    words: List[str]
    statuses: Tuple[int, ...]
    file: str = ""  # that is run in place of the server's own

    @property
    def name(self) -> str:
        return f"{self.server}/{self.what}"


def tests(server: str) -> List[Test]:
    """Three sorts: each object of the server under faults, in network namespaces if the machine allows them; the first object by the proxy;
    and each planted fault of the server."""
    kind, file = kind_of(server), OWN.get(server, "")
    found = [Test(server, model, ["--object", model, "--time", str(SECONDS)], GOOD, file) for model in kind.objects]
    planted = [Test(server, plant, ["--inject-bug", plant, "--time", str(seconds(server, plant))], (1,), file) for plant in kind.plants]
    if file:
        return found + planted
    found += [Test(server, "proxy", ["--network", "proxy", "--time", str(SECONDS)], GOOD)]
    if "bump" not in kind.cannot and not clocks.why_not():
        found += [Test(server, "clocks", ["--nemesis", CLOCKED.get(server, "all,bump,strobe"), "--time", str(SECONDS)], GOOD)]
    if server in CLUSTERS and not places.why_not():
        found += [Test(server, "cluster", ["--nodes", CLUSTERS[server], "--time", str(SECONDS)], GOOD)]
    if kind.strikes:
        found += [Test(server, "own", ["--nemesis", ",".join(kind.strikes), "--time", str(SECONDS)], GOOD)]
    if not disks.why_not():
        found += [Test(server, name, ["--durability", name, "--nemesis", "power", "--nodes", "1", "--time", str(seconds(server, name))], (1,))
                  for name in list(kind.durabilities)[1:]]
    found += [Test(server, name, ["--time", str(UNTIL_FOUND)], (1,), str(TOP / path)) for name, path in FILES.get(server, {}).items()]
    return found + planted


def seconds(server: str, plant: str) -> int:
    """Counting at the end finds losses: such a run ends by itself."""
    if (server, plant) in COUNTED or server == "beanstalkd":
        return 2 * SECONDS
    return 3 * UNTIL_FOUND if (server, plant) in SELDOM else UNTIL_FOUND


def kind_of(server: str) -> Type[Server]:
    return server_of(OWN.get(server, server))


def missing(server: str) -> Optional[str]:
    try:
        kind_of(server).test_installed()
    except ServerError as fault:
        return str(fault)
    return None


def passes(test: Test) -> bool:
    """Whether the result is right. A run without a verdict, for example of a server that did not start in time, is tried once more. So is a
    run that did not meet its fault. The output says so. A wrong verdict is tried once more only for a server that diverges by itself."""
    good, status, text = run(test)
    if status not in test.statuses and (status != 1 or (test.server, test.what) in DIVERGES):
        print(f"{test.name}: once more, after\n{text}", flush=True)
        good, status, text = run(test)
    print(f"{test.name}: {text}", flush=True)
    return good


def run(test: Test) -> Tuple[bool, int, str]:
    room = pathlib.Path(tempfile.mkdtemp(prefix="servers-"))
    room.chmod(0o755)
    try:
        return tried(test, room)
    finally:
        shutil.rmtree(room, ignore_errors=True)


def tried(test: Test, room: pathlib.Path) -> Tuple[bool, int, str]:
    """Runs the test. Gives whether the result is right, the status, and the output."""
    words = [sys.executable, "-m", "jepmon", "test", test.file or test.server, *test.words, "--out", str(room / "runs"), *PATIENT]
    environment = {**os.environ, "JEPMON": str(PROGRAM), "PYTHONPATH": str(TOP / "python"), "TMPDIR": str(room)}
    try:
        ran = subprocess.run(words, stdout=subprocess.PIPE, stderr=subprocess.PIPE, universal_newlines=True, timeout=PATIENCE,
                             env=environment)
    except subprocess.TimeoutExpired as fault:
        return False, NONE, f"FAILED: it did not end within {PATIENCE:.0f} s\n{fault.stdout}"
    lines = ran.stdout.splitlines()
    left = [name for name in os.listdir(room) if name != "runs"]
    if ran.returncode in test.statuses and not left:
        return True, ran.returncode, f"ok: {lines[-1]}{': ' + ran.stderr.splitlines()[0] if ran.stderr else ''}"
    logs = [f"--- {log.name}\n" + "\n".join(log.read_text(errors="replace").splitlines()[-20:])
            for log in sorted((room / "runs").glob("latest/*.log"))]
    return False, ran.returncode, "\n".join([f"FAILED: status {ran.returncode}; left: {left}", ran.stdout, ran.stderr, *logs])


def main(wanted: List[str]) -> int:
    passed = failed = skipped = 0
    for server in [*SERVERS, *OWN]:
        chosen = [test for test in tests(server) if not wanted or server in wanted or test.name in wanted]
        lacks = missing(server) if chosen else None
        if lacks is not None:
            print(f"skipped: {server}: {lacks}")
            skipped += len(chosen)
            continue
        with concurrent.futures.ThreadPoolExecutor(AT_ONCE) as pool:
            good = sum(pool.map(passes, chosen))
        passed, failed = passed + good, failed + len(chosen) - good
    print(f"{passed} passed, {failed} failed" + (f", {skipped} skipped" if skipped else ""))
    return 1 if failed else 0


if __name__ == "__main__":
    sys.exit(main(sys.argv[1:]))
