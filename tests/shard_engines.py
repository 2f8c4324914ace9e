"""Shards that are judged elsewhere: by GNU parallel, and on a Dask cluster whose parts are killed."""
import contextlib
import json
import os
import pathlib
import subprocess
import sys
import time
from typing import Callable, Iterator, List, Tuple

from case_loop import differing
from program import PROGRAM
from shard_runs import LIMIT, Ran, checked, environment, room, script, several, tool

SYSTEM = "/usr/bin/python3"  # for which Debian's python3-distributed is


# --- jepmon-shards, and GNU parallel ---


def parallel(folder: pathlib.Path, jepmon: str, *words: str) -> int:
    judge = f"{sys.executable} -m jepmon shards judge"
    files = sorted(str(path) for path in folder.glob("*.edn"))
    ran = subprocess.run(["parallel", "--will-cite", "--jobs", "2", "--retries", "3", *words, judge, "{}", ":::", *files],
                         stdin=subprocess.DEVNULL, stdout=subprocess.DEVNULL, stderr=subprocess.PIPE, timeout=LIMIT,
                         env=environment(jepmon))
    return ran.returncode


def run_parallel() -> List[str]:
    """Shards that are judged by GNU parallel, the first job of which is killed: the same report as that of a check."""
    faults: List[str] = []
    with room() as folder:
        path, shards = several(folder / "history.edn"), folder / "shards"
        status, output, _ = tool("shards", "split", str(path), str(shards))
        faults += differing("the shards", (status, output.split()), (0, sorted(str(file) for file in shards.glob("*.edn"))))
        faults += differing("whether there are several", len(output.split()) > 2, True)
        status, report, error = tool("shards", "join", str(shards))
        faults += differing("a join too early", (status, report, "are not judged: shard-" in error), (3, "", True))
        killed = script(folder / "jepmon", f"if mkdir {folder}/once 2>/dev/null; then kill -9 $PPID; fi; exec {PROGRAM} \"$@\"\n")
        faults += differing("the status of parallel", (parallel(shards, killed), (folder / "once").exists()), (0, True))
        faults += differing("the report", tool("shards", "join", str(shards))[:2], checked(path))
        os.unlink(next(shards.glob("*.out")))
        dead = script(folder / "dead", "kill -9 $$\n")
        faults += differing("that a job fails", parallel(shards, dead) > 0, True)
        status, report, error = tool("shards", "join", str(shards))
        faults += differing("a join of what lacks", (status, report, "1 are not judged" in error), (3, "", True))
        faults += differing("what goes on", parallel(shards, str(PROGRAM)), 0)
        faults += differing("the report in the end", tool("shards", "join", str(shards))[:2], checked(path))
    return faults


# --- Dask ---


@contextlib.contextmanager
def cluster(folder: pathlib.Path, programs: List[str]) -> "Iterator[Tuple[str, List[subprocess.Popen[bytes]]]]":
    """A scheduler, and a worker for each program: the file that has the address, and all that was started."""
    told = folder / "scheduler.json"
    log = open(folder / "log", "wb")
    started: "List[subprocess.Popen[bytes]]" = []

    def start(*words: str, **more: str) -> None:
        started.append(subprocess.Popen([SYSTEM, "-m", *words], stdout=log, stderr=log, cwd=folder, env={**environment(), **more}))

    try:
        start("distributed.cli.dask_scheduler", "--host", "127.0.0.1", "--port", "0", "--no-dashboard", "--scheduler-file", str(told))
        for number, program in enumerate(programs):
            start("distributed.cli.dask_worker", "--scheduler-file", str(told), "--nworkers", "1", "--nthreads", "1", "--no-nanny",
                  "--no-dashboard", "--local-directory", str(folder / f"worker-{number}"), JEPMON=program)
        yield str(told), started
    finally:
        for child in started:
            child.kill()
            child.wait()
        log.close()


def address_of(told: str) -> str:
    began = time.monotonic()
    while time.monotonic() < began + LIMIT:
        with contextlib.suppress(OSError, ValueError, KeyError):
            address: str = json.loads(pathlib.Path(told).read_text())["address"]
            return address
        time.sleep(0.2)
    raise TimeoutError("the scheduler did not begin")


def run_on_cluster(folder: pathlib.Path, path: pathlib.Path, programs: Callable[[pathlib.Path], List[str]], kills: str = "worker") -> Ran:
    """Judges a history on a cluster, whose first worker, or scheduler, is killed in the first task."""
    with cluster(folder, programs(folder)) as (told, started):
        child = subprocess.Popen([SYSTEM, "-m", "jepmon", "judge", str(path), "--dask", address_of(told), "--jobs", "1", "--no-cause"],
                                 stdout=subprocess.PIPE, stderr=subprocess.PIPE, universal_newlines=True, env=environment())
        began = time.monotonic()
        while not (folder / "began").exists() and child.poll() is None and time.monotonic() < began + LIMIT:
            time.sleep(0.1)
        started[kills == "worker"].kill()
        output, error = child.communicate(timeout=LIMIT)
        return child.returncode, output, error


def stuck(folder: pathlib.Path) -> str:
    """A program that never ends."""
    return script(folder / "stuck", f"touch {folder}/began; exec sleep 1000\n")


def run_a_worker_killed() -> List[str]:
    """Two workers; one is killed in the middle, the other does its tasks, and the report is the same."""
    with room() as folder:
        path = several(folder / "history.edn")
        status, output, error = run_on_cluster(folder, path, lambda folder: [stuck(folder), str(PROGRAM)])
        faults = differing("what came", (status, output), checked(path)) + ([error] if status == 3 else [])
        return faults + differing("that it was killed", (folder / "began").exists(), True)


def run_no_worker_left() -> List[str]:
    """The only worker is killed: it is said, and there is no verdict."""
    with room() as folder:
        path = several(folder / "history.edn", illegal=False)
        status, output, error = run_on_cluster(folder, path, lambda folder: [stuck(folder)])
        return differing("what came", (status, output, "has no worker, and" in error, "Traceback" in error), (3, "", True, False))


def run_scheduler_lost() -> List[str]:
    """The scheduler is killed: it is said, and there is no verdict."""
    with room() as folder:
        path = several(folder / "history.edn", illegal=False)
        status, output, error = run_on_cluster(folder, path, lambda folder: [stuck(folder)], kills="scheduler")
        said = "not judged" in error or "can't be judged" in error
        return differing("what came", (status, output, said, "Traceback" in error), (3, "", True, False))


def run_program_fails_there() -> List[str]:
    """A program that fails on the workers, and a scheduler that is not there."""
    with room() as folder:
        path = several(folder / "history.edn", illegal=False)
        failing = script(folder / "failing", f"touch {folder}/began; exit 7\n")
        with cluster(folder, [failing]) as (told, _):
            status, output, error = tool("judge", str(path), "--dask", address_of(told), "--jobs", "1", python=SYSTEM)
        faults = differing("what came", (status, output, "has ended with status 7" in error), (3, "", True))
        status, output, error = tool("judge", str(path), "--dask", "tcp://127.0.0.1:9", "--jobs", "1", python=SYSTEM)
        said = "there is no Dask scheduler at tcp://127.0.0.1:9" in error
        return faults + differing("nobody there", (status, output, said), (3, "", True))


def has_dask() -> bool:
    return os.path.exists(SYSTEM) and subprocess.run([SYSTEM, "-c", "import distributed"], stderr=subprocess.DEVNULL).returncode == 0
