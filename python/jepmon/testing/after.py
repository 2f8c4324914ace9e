"""After a finding: repairs the servers, reads the bad key once more at every node, and keeps the nodes' data.

These reads distinguish a lost write, a stale read, a dirty read, and nodes that differ. The results come from reads, and are not proved.
"""
from __future__ import annotations

import contextlib
import os
import pathlib
import shutil
import stat
import sys
import time
from typing import Any, Callable, Dict, Iterator, List, NamedTuple, Optional, Sequence

from ..history import Event
from ..history.kinds import ABSENT
from ..live import aftermath
from ..live.run_folder import AFTER, HISTORY, LOST, write_whole
from ..live.verdicts import Illegal
from ..rates.run import Statuses
from .cluster import Cluster
from .crashes import finding
from .errors import Died
from .failures import Failure, failure_of, verdict_on_failure
from .losses import Acknowledged, One, known_from, line, many, told
from .node import Node
from .server import Server

FINDING, ALWAYS, NEVER = "finding", "always", "never"  # the settings of --keep-nodes: when the nodes' data are kept
PATIENCE = 30.0  # seconds, at most, until the nodes are ready again
ROUNDS = 5  # the nodes are read at most this many times, until they agree
PAUSE = 0.4  # seconds between two rounds
TRIES = 3  # a read is tried at most this many times
MOST = 10_000  # at most this many messages of a queue are drained
SHOWN = 120  # at most this many characters of a value are shown


class Reading(NamedTuple):
    """The answer of a node: a value, or the reason why there is none."""

    value: Any
    fault: str = ""

    def __str__(self) -> str:
        text = self.fault or ("ABSENT" if self.value is None else shown(self.value))
        return text if len(text) <= SHOWN else text[:SHOWN] + " .."


@contextlib.contextmanager
def after_a_finding(cluster: Cluster, folder: pathlib.Path, keep: str, lost: Callable[[], int]) -> Iterator[None]:
    """Runs the test as its block. If the test ends with a finding, or if messages are lost, collects the facts while the servers still
    run."""
    found = False
    try:
        yield
        found = lost() > 0
    except Illegal as illegal:
        found = True
        read_again(cluster, illegal)
        raise
    except Died as died:
        found = finding(died) is not None
        raise
    finally:
        if keep == ALWAYS or keep == FINDING and found:
            keep_nodes(cluster, folder)


# --- The bad key, once more ---


def read_again(cluster: Cluster, illegal: Illegal) -> None:
    """Reads the bad key again, and leaves the results in the folder of the part. Raises nothing except Ctrl-C, since a failure here must
    not change the verdict."""
    part = pathlib.Path(illegal.folder)
    try:
        lines = _read_again(cluster, illegal, part)
        if lines:
            write_whole(part / AFTER, "".join(line + "\n" for line in lines))
    except Exception as fault:
        print(f"jepmon: the key was not read again: {type(fault).__name__}: {fault}", file=sys.stderr)


def _read_again(cluster: Cluster, illegal: Illegal, part: pathlib.Path) -> List[str]:
    if illegal.key is None:
        return []
    events, faults = aftermath.read(part / HISTORY, illegal.key)
    fatal = next((event for event in events if event.index == illegal.index), None)
    if fatal is None:
        return []
    key = int(Statuses(part).names.get(illegal.key, str(illegal.key)))
    begun = max(event.index for event in events if event.process == fatal.process and event.index < fatal.index)
    acknowledged = Acknowledged.of(events, begun, faults)
    client = cluster.server.objects[cluster.server.model]
    sentences: List[str] = []
    lost: List[One] = []
    if hasattr(client, "read"):
        mend(cluster)
        readings = readings_of(cluster, key)
        asked = {cluster.server.node_of(number).name for number in range(2 * len(cluster.nodes))}
        by_clients = {name: reading for name, reading in readings.items() if name in asked}
        sentences += [f"Once all faults were ended, key {key} was read again: {listed(readings)}.",
                      verdict_on(fatal, by_clients, acknowledged, known_from(events, begun, fatal.value), failure_of(fatal, events, faults)),
                      others_that_differ(readings, by_clients)]
        lost = lost_members(readings, acknowledged)
    elif hasattr(client, "dequeue"):
        mend(cluster)
        rest = drained(cluster, key)
        lost = lost_messages(events, rest, acknowledged)
        sentences.append(verdict_on_queue(key, events, rest, lost))
    if lost:
        write_whole(part.parent / LOST, "".join(line(f"key {key}", one) for one in lost))
    return [sentence for sentence in sentences if sentence]


def mend(cluster: Cluster) -> None:
    """Waits until the nodes are ready. The faults are over by now, but some nodes may still have to start."""
    cluster.stopped.clear()
    cluster.server.patience = min(cluster.server.patience, PATIENCE)
    for node in cluster.nodes:
        node.go_on()
    cluster.wait_until_all_ready()


def drained(cluster: Cluster, key: int) -> List[int]:
    """The messages that a queue still has."""
    found: List[int] = []
    with cluster.clients():
        client: Any = cluster.server.client(0)
        with contextlib.closing(client):
            while len(found) < MOST:
                value = client.dequeue(key)
                if value is None:
                    break
                found.append(value)
    return found


def lost_messages(events: Sequence[Event], rest: Sequence[int], acknowledged: Acknowledged) -> List[One]:
    came = {event.value for event in events if event.kind == "ok" and event.name == "dequeue"} | set(rest)
    return [one for one in acknowledged.values if one.value not in came]


def verdict_on_queue(key: int, events: Sequence[Event], rest: Sequence[int], lost: Sequence[One]) -> str:
    """The messages that are gone, after the queue was drained."""
    said = f"Once all faults were ended, queue {key} was drained: {len(rest)} messages came."
    if not lost:
        return f"{said} Each message that was acknowledged has come: none is lost."
    maybe = min(len(lost), sum(event.kind == "info" and event.name == "dequeue" for event in events))
    doubt = f", {maybe} of which dequeues that timed out may have taken" if maybe else ""
    return f"{said} Messages are LOST, {len(lost)} in all{doubt}: {many(lost)}."


def readings_of(cluster: Cluster, key: int) -> Dict[str, Reading]:
    """The answer of each node that can be read, by its name. Reads until the nodes agree, or until they have had some time to do so."""
    readings: Dict[str, Reading] = {}
    with cluster.clients():
        for number in range(ROUNDS):
            before, readings = readings, one_round(cluster, key)
            if number and before == readings and len(set(map(str, readings.values()))) == 1:
                break
            time.sleep(PAUSE)
    return readings


def one_round(cluster: Cluster, key: int) -> Dict[str, Reading]:
    server = cluster.server
    numbers = {server.node_of(number): number for number in reversed(range(2 * len(cluster.nodes)))}
    readings = {node.name: one_reading(server, node, numbers.get(node), key) for node in cluster.nodes}
    return {name: reading for name, reading in readings.items() if reading is not None}


def one_reading(server: Server, node: Node, number: Optional[int], key: int) -> Optional[Reading]:
    """Returns the answer at this node, through the server's own reader for the node, otherwise through the client of this number. None if
    there is neither."""
    said = ""
    for _ in range(TRIES):
        client: Any = server.reader(node)
        if client is None and number is not None:
            client = server.client(number)
        if client is None:
            return None
        try:
            value = client.read(key)
            return Reading(frozenset(value) if isinstance(value, (set, frozenset, list, tuple)) else value)
        except Exception as fault:  # the client may raise any class
            said = f"no answer ({type(fault).__name__})"
        finally:
            client.close()
    return Reading(None, said)


def others_that_differ(readings: Dict[str, Reading], by_clients: Dict[str, Reading]) -> str:
    """Nodes that no client uses, and that hold another value than the nodes that clients use."""
    held = {str(reading) for reading in by_clients.values() if not reading.fault}
    names = [name for name, reading in readings.items() if name not in by_clients and not reading.fault and str(reading) not in held]
    return f"Another value is still at {', '.join(names)}: DIVERGED from the nodes that clients ask." if names and held else ""


def verdict_on(fatal: Event, readings: Dict[str, Reading], acknowledged: Acknowledged, known: int, failure: Optional[Failure] = None) -> str:
    """The sentence that says lost, stale, dirty or diverged. `acknowledged` has the writes that were acknowledged before the operation
    began. `known` is the first event that shows the answer in the key, or -1. `failure` is the failed operation that brought the answer, if
    there is one."""
    values = [reading.value for reading in readings.values() if not reading.fault]
    if not values:
        return "No node answered, so nobody knows whether something is lost."
    if any(value != values[0] for value in values):
        return "Nodes DIVERGED: they still hold different values."
    if failure is not None:
        return verdict_on_failure(failure, values[0])
    if isinstance(values[0], frozenset):
        return verdict_on_set(fatal, values[0], acknowledged)
    if fatal.name != "read":
        return ""
    wrong = None if fatal.value == ABSENT else fatal.value
    if values[0] != wrong and any(one.value == values[0] for one in acknowledged.values):
        return f"The read was STALE: the nodes hold {shown(values[0])}, which had been acknowledged before the read began."
    if values[0] != wrong:
        return f"LOST or STALE, nobody knows which: a write of {shown(values[0])}, not acknowledged when the read began, took place since."
    if known < 0 and wrong is not None:
        return "The wrong answer stays."
    later = [one for one in acknowledged.after(known) if one.value != wrong]
    if later:
        return f"A write is LOST: the wrong answer stays. The write of {told(later[-1])}."
    return f"An EARLIER answer was wrong: {shown(wrong)} stays, and no write that began after it was there has been acknowledged."


def lost_members(readings: Dict[str, Reading], acknowledged: Acknowledged) -> List[One]:
    """Returns the acknowledged members that no node has."""
    sets = [reading.value for reading in readings.values() if isinstance(reading.value, frozenset)]
    return acknowledged.missing(frozenset().union(*sets)) if sets else []


def verdict_on_set(fatal: Event, held: "frozenset[int]", acknowledged: Acknowledged) -> str:
    lost = acknowledged.missing(held)
    if lost:
        return f"Members are LOST, {len(lost)} in all: {many(lost)}."
    if held == fatal.value:
        return "The wrong answer stays."
    return "The read was STALE: each member whose add was acknowledged is there."


def listed(readings: Dict[str, Reading]) -> str:
    """Lists the readings. Nodes with the same answer are together."""
    by_text: Dict[str, List[str]] = {}
    for name, reading in readings.items():
        by_text.setdefault(str(reading), []).append(name)
    return "; ".join(f"{text} at {', '.join(names)}" for text, names in by_text.items())


def shown(value: Any) -> str:
    if isinstance(value, frozenset):
        return "#{" + " ".join(map(str, sorted(value))) + "}"
    return "ABSENT" if value in (None, ABSENT) else str(value)


# --- The nodes' data ---


def keep_nodes(cluster: Cluster, folder: pathlib.Path) -> None:
    """Kills the nodes, and copies their folders into the run's folder, as n1.data. Reports files that it can't copy."""
    for node in cluster.nodes:
        node.kill()
        try:
            shutil.copytree(node.folder, folder / f"{node.name}.data", symlinks=True, ignore=special, dirs_exist_ok=True)
        except (OSError, shutil.Error) as fault:
            reason: Optional[str] = fault.strerror if isinstance(fault, OSError) and fault.strerror else str(fault)[:200]
            print(f"jepmon: the data of {node.name} are not kept whole: {reason}", file=sys.stderr)


def special(path: str, names: List[str]) -> List[str]:
    """Sockets, pipes and devices, which can't be copied."""
    found = []
    for name in names:
        try:
            mode = os.lstat(os.path.join(path, name)).st_mode
        except OSError:
            continue
        if not (stat.S_ISREG(mode) or stat.S_ISDIR(mode) or stat.S_ISLNK(mode)):
            found.append(name)
    return found
