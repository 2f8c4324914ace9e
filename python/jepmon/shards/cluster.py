"""Judges shards on a Dask cluster (https://distributed.dask.org). Its workers need the program `jepmon`, and nothing of this package.

A task contains the text of its shard, so that another worker can do it if a worker dies. Without a report on each shard there is no
verdict: this happens if a task fails again and again, the scheduler is lost, or all workers are gone.
"""
from __future__ import annotations

import contextlib
import importlib
import logging
import os
import time
import warnings
from typing import Any, Callable, Dict, Iterator, List, Sequence, Tuple

from ..program import Options, Report, report_of
from ..program.equal_values import is_left, joined
from .doubt import ShardsError
from .folder import OUT, TEXT, Written, write_report
from .judging import Judged
from .splitting import judged_of, tested_report

CONNECT = 20.0  # seconds within which the scheduler must answer
PATIENCE = 30.0  # the cluster may have no worker for this number of seconds
LOOK = 0.02  # seconds between two looks at the tasks
RETRIES = 3  # the number of times that a failed task is repeated


def judged_on(address: str, folder: str, shards: Sequence[Written], options: Options, *, threads: int, program: str,
              patience: float = PATIENCE) -> Iterator[Judged]:
    """The result of the shards of a folder, as the cluster judges them."""
    with connected(address) as client:
        tasks = Tasks(client, address, folder, options._replace(concurrency=threads, workers=None), program, patience)
        for shard, report in tasks.reports(shards):
            path = os.path.join(folder, shard.name + OUT)
            write_report(path, shard.checksum, tested_report(report))
            yield judged_of(folder, shard, path, options, folder)


@contextlib.contextmanager
def connected(address: str) -> Iterator[Any]:
    try:
        distributed: Any = importlib.import_module("distributed")  # optional: nothing else of this package needs it
    except ImportError as fault:
        raise ShardsError(f"--dask needs the package distributed (Debian: python3-distributed), which is not here: {fault}") from fault
    logged = logging.root.manager.disable
    logging.disable(logging.CRITICAL)  # this module itself reports losses, in one line
    warnings.filterwarnings("ignore", module="distributed")  # it warns of large tasks, but a task has to contain its shard, so that no shard is lost
    client: Any = None
    try:
        client = distributed.Client(address, timeout=CONNECT, set_as_default=False)
        yield client
    except (OSError, ValueError, TypeError) as fault:
        if client is not None:
            raise
        said = " ".join(str(fault).split())
        raise ShardsError(f"there is no Dask scheduler at {address}: {said or type(fault).__name__}") from fault
    finally:
        with contextlib.suppress(Exception):
            if client is not None:
                client.close(timeout=5)
        logging.disable(logged)


class Tasks:
    """The tasks of a cluster, a few at once, since the scheduler keeps the text of each."""

    def __init__(self, client: Any, address: str, folder: str, options: Options, program: str, patience: float) -> None:
        self._client, self._address, self._folder = client, address, folder
        self._options, self._program, self._patience = options, program, patience
        self._check = checker()
        self._running: Dict[Any, Written] = {}
        self._left: Dict[str, Report] = {}  # the first reports on shards that are judged again by ends, since values are equal
        self._had_workers = time.monotonic()

    def reports(self, shards: Sequence[Written]) -> Iterator[Tuple[Written, str]]:
        waiting = list(reversed(shards))
        while waiting or self._running:
            while waiting and len(self._running) < max(2, 2 * self._threads(len(waiting) + len(self._running))):
                self._send(waiting.pop())
            for future in self._done():
                shard = self._running.pop(future)
                report, left = report_of(self._report(future, shard), "", 0), self._left.pop(shard.name, None)
                if left is None and any(map(is_left, report.keys)):
                    self._left[shard.name] = report
                    self._send(shard, by_ends=True)
                else:
                    yield shard, (report if left is None else joined(left, report)).text

    def _send(self, shard: Written, by_ends: bool = False) -> None:
        with open(os.path.join(self._folder, shard.name + TEXT), "rb") as file:
            text = file.read()
        words = self._options._replace(model=shard.model, by_ends=by_ends or self._options.by_ends).words(self._program)
        future = self._client.submit(self._check, text, words, self._program, pure=False, retries=RETRIES)
        self._running[future] = shard

    def _threads(self, left: int) -> int:
        """The number of threads of the workers. Raises a ShardsError if there was no worker for too long."""
        try:
            workers: Dict[str, Any] = self._client.scheduler_info()["workers"]
        except Exception as fault:  # an exception of any class means that the scheduler is lost
            raise ShardsError(f"the Dask scheduler at {self._address} is lost, and {left} shards are not judged") from fault
        now = time.monotonic()
        if workers:
            self._had_workers = now
        elif now - self._had_workers > self._patience:
            raise ShardsError(f"the Dask cluster at {self._address} has no worker, and {left} shards are not judged")
        return sum(int(worker.get("nthreads", 1)) for worker in workers.values())

    def _done(self) -> List[Any]:
        """Waits for tasks, and returns those that are done."""
        looked = time.monotonic()
        while True:
            done = [future for future in self._running if future.status != "pending"]
            if done:
                return done
            time.sleep(LOOK)
            if time.monotonic() > looked + 1:
                self._threads(len(self._running))
                looked = time.monotonic()

    def _report(self, future: Any, shard: Written) -> str:
        """Returns the program's output for a shard."""
        if future.status != "finished":
            fault = future.exception(timeout=CONNECT) if future.status == "error" else None
            said = " ".join(str(fault).split()) if fault is not None else f"its task is {future.status}"
            raise ShardsError(f"shard {shard.name} can't be judged on the Dask cluster at {self._address}: {said[:300]}")
        report: str = future.result(timeout=CONNECT)
        future.release()
        return report


def checker() -> Callable[[bytes, List[str], str], str]:
    """The function of a worker. It is made here, so that it is sent with the task, and a worker needs no module of this package."""
    def check(text: bytes, words: List[str], program: str) -> str:
        import os
        import shutil
        import subprocess

        names = [os.environ.get("JEPMON"), program, "jepmon"]
        name = next((name for name in names if name and shutil.which(name)), None)
        if name is None:
            raise RuntimeError(f"this worker has no jepmon: {program} does not exist, and there is none on the PATH")
        ran = subprocess.run([name, "check", "/dev/stdin"] + words, input=text, stdout=subprocess.PIPE, stderr=subprocess.DEVNULL)
        if ran.returncode not in (0, 1, 2, 3):
            raise RuntimeError(f"{name} has ended with status {ran.returncode}")
        return ran.stdout.decode()
    return check
