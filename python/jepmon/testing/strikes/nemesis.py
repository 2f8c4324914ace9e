"""The nemesis: strikes in lanes, each a thread, so that strikes may overlap at any moment. It does not wait for a healthy moment between
strikes."""
from __future__ import annotations

import contextlib
import math
import threading
import time
from typing import TYPE_CHECKING, Callable, Counter, Dict, Iterator, List, Mapping, Optional, Set, Tuple

from ..errors import Died
from .kind import ALONE, PROCESS, Strike
from .plan import Lane, Planned
from .told import Told, told

if TYPE_CHECKING:
    from ...long import LongMonitor
    from ..cluster import Cluster
    from ..node import Node

GLANCE = 0.1  # seconds between two looks at the nodes
SINGLE = "single"  # the lane of all strikes that never overlap one another


class Nemesis:
    """Strikes until the time is up, except during calms. `calm_from` gives the beginning of the next calm, in seconds. `struck` counts the
    strikes by name."""

    def __init__(self, monitor: LongMonitor, cluster: Cluster, strikes: Mapping[str, Strike], lanes: List[Lane], seconds: float,
                 calm_from: Callable[[float], float] = lambda seconds: math.inf) -> None:
        self._calm_from = calm_from
        self._monitor, self._cluster, self._strikes, self._lanes = monitor, cluster, strikes, lanes
        self._begun = time.monotonic()
        self._end = self._begun + seconds
        self._lock = threading.Lock()
        self._going_on: Dict[int, Told] = {}
        self._taken: Set[Tuple[str, str]] = set()  # the lanes of nodes in which a strike is active
        self._count = 0
        self._fault: Optional[BaseException] = None
        self.struck: Counter[str] = Counter()

    def run(self) -> None:
        """Runs until all lanes have ended their strikes. Raises the exception of a lane, or a Died if a node has died by itself."""
        threads = [threading.Thread(target=self._run, args=(lane,), name=f"strikes {number}") for number, lane in enumerate(self._lanes)]
        for thread in threads:
            thread.start()
        try:
            self._wait(self._end)
        except BaseException as fault:
            self._stop(fault)
        for thread in threads:
            thread.join()
        if self._fault is not None:
            raise self._fault

    def _run(self, lane: Lane) -> None:
        try:
            late = 0.0  # the seconds by which strikes lasted longer than planned, for example because of a restart
            for planned in lane.strikes:
                if not self._wait(self._begun + planned.begin + late) or not self._wait_for_calm_to_end():
                    return
                with self._node(planned) as node:
                    if node is None:
                        return
                    with self._strike(planned, node):
                        now = time.monotonic()
                        went_on = self._wait(min(now + planned.lasting, self._begun + self._calm_from(now - self._begun)))
                    if not went_on or planned.settles and lane.is_shifted and not self._settled(planned, node):
                        return
                if lane.is_shifted:
                    late = max(0.0, time.monotonic() - self._begun - planned.begin - planned.lasting)
        except BaseException as fault:
            self._stop(fault)

    def _wait_for_calm_to_end(self) -> bool:
        """Waits until the calm has ended. Returns whether the run continues after that."""
        while self._calm_from(time.monotonic() - self._begun) <= time.monotonic() - self._begun:
            if not self._wait(time.monotonic() + GLANCE):
                return False
        return True

    def _stop(self, fault: BaseException) -> None:
        """Ends all lanes after the first fault. Notes the time at which a dead node was found in the history."""
        with self._lock:
            is_first = self._fault is None
            self._fault = self._fault or fault
        if is_first and isinstance(fault, Died):
            self._monitor.note(fault.note)

    @contextlib.contextmanager
    def _strike(self, planned: Planned, node: Node) -> Iterator[None]:
        kind = self._strikes[planned.name]
        with self._lock:
            self._count += 1
            number = self._count
            going_on = sorted(one.short for one in self._going_on.values())
            strike = told(kind.text, planned.name, node.name, kind.lane, planned.values, going_on)
            self._going_on[number] = strike
        try:
            with self._monitor.fault(strike.note()):
                with self._lock:
                    self.struck[planned.name] += 1
                with kind.during(self._cluster, node, planned.values):
                    yield
        finally:
            with self._lock:
                del self._going_on[number]

    @contextlib.contextmanager
    def _node(self, planned: Planned) -> Iterator[Optional[Node]]:
        """The node to strike: the planned one, or else the next node without another strike of this lane. None if the time is up before
        there is such a node."""
        kind = self._strikes[planned.name]
        single = [(SINGLE, "")] if kind.is_single else []
        first = self._cluster.nodes[planned.node]
        if planned.at_leader:
            first = self._cluster.leader() or first
        nodes = [first] if planned.is_named else self._cluster.nodes[first.number:] + self._cluster.nodes[:first.number]
        node = self._taken_one(kind.lane, nodes, single)
        while node is None and self._wait(time.monotonic() + GLANCE):
            node = self._taken_one(kind.lane, nodes, single)
        try:
            yield node
        finally:
            if node is not None:
                with self._lock:
                    self._taken -= {(kind.lane, node.name), *single}

    def _taken_one(self, lane: str, nodes: List[Node], single: List[Tuple[str, str]]) -> Optional[Node]:
        with self._lock:
            for node in nodes if not self._taken & set(single) else []:
                if lane not in ALONE or (lane, node.name) not in self._taken:
                    self._taken |= {(lane, node.name), *single}
                    return node
        return None

    def _settled(self, planned: Planned, node: Node) -> bool:
        """If the process of the node was struck, waits until the node is ready again, so that a slowly starting server does some work
        between two strikes. Returns whether the run continues."""
        if self._strikes[planned.name].lane != PROCESS:
            return True
        end = time.monotonic() + self._cluster.server.patience
        while time.monotonic() < end and not self._cluster.is_ready(node):
            if not self._wait(time.monotonic() + GLANCE):
                return False
        return True

    def _wait(self, until: float) -> bool:
        """Waits, and watches the nodes meanwhile. Returns whether the run continues after that."""
        while True:
            self._cluster.test_alive()
            now = time.monotonic()
            if now >= self._end or self._fault or self._monitor.failure is not None or self._cluster.stopped.is_set():
                return False
            if now >= until:
                return True
            time.sleep(max(0.0, min(GLANCE, until - now, self._end - now)))
