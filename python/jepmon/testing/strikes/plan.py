"""The items of `--nemesis`, and a seed's choice among them.

    kill,pause:n1                      these strikes, drawn; pause hits only node n1
    all,power                          all strikes that the server should survive, and one more
    slow:delay=0.2:lasting=1..5        parameters: a number, or two limits between which each strike draws a number
    partition:leader                   the node that the server names as its leader (Server.leader)
    pause:n1@2+4,pause:n2@3+1          a schedule: from second 2 on, for 4 seconds; both are down from 3 to 4
"""
from __future__ import annotations

import random
import re
from typing import Callable, Dict, Iterator, List, Mapping, NamedTuple, Optional, Sequence, Tuple

from ..errors import ServerError
from .kind import ALONE, CLOCK, LINKS, OTHER, PROCESS, Parameter, Strike

ALL, NONE, LEADER = "all", "none", "leader"
ITEM = re.compile(r"(?P<name>[a-z-]+)(?::(?P<node>n[0-9]+|leader))?(?P<given>(?::[a-z_]+=[-0-9.]+)*)"
                  r"(?:@(?P<begin>[0-9]+(?:\.[0-9]+)?)(?:\+(?P<lasting>[0-9]+(?:\.[0-9]+)?))?)?")
NUMBER = r"-?[0-9]+(?:\.[0-9]+)?"
RANGE = re.compile(rf"({NUMBER})(?:\.\.({NUMBER}))?")
ALIASES = {"part": "partition"}  # former names of strikes
LASTING = Parameter(0.1, 10.0, 0.01)  # seconds of a strike
REST = Parameter(0.2, 3.0)  # seconds between two strikes of a lane
SHARE = 0.15  # a share of the run: no drawn strike lasts longer, and the first one comes within half of this
QUIET = 0.5  # at least this many seconds come before the first strike
AT_LEADER = 0.25  # the chance that a strike on any node hits the leader, if the server names one
UNSETTLED = 0.25  # the chance that a node is struck again before it is ready
SCHEDULED = 1.0  # the seconds of a scheduled strike without a stated length


class Planned(NamedTuple):
    """One strike that is planned."""

    begin: float  # seconds from the first operation on
    lasting: float
    name: str
    node: int
    is_named: bool = False  # whether the user names the node; otherwise another node is hit if this node has a strike of this lane
    at_leader: bool = False  # whether to hit the leader if there is one, instead of the node
    values: Mapping[str, float] = {}
    settles: bool = True  # whether the lane waits until the node is ready before the next strike


class Lane(NamedTuple):
    """Strikes that come one after another."""

    strikes: Iterator[Planned]
    is_shifted: bool  # whether a late strike delays all later strikes


class Item(NamedTuple):
    """One item of the text."""

    word: str
    name: str
    node: Optional[int]
    at_leader: bool
    given: Mapping[str, Parameter]
    begin: Optional[float]
    lasting: float


class Plan:
    """The items of `text`, for a server with this number of nodes and these strikes. `default` has the strikes of `all`. If `why_not` gives
    a reason against one of these, it is left out, and `left_out` has the reason. Raises a ServerError if the user names an impossible
    strike."""

    def __init__(self, text: str, nodes: int, strikes: Mapping[str, Strike], default: Sequence[str],
                 why_not: Callable[[str], Optional[str]] = lambda name: None, has_leader: bool = False) -> None:
        self.nodes, self.known, self.has_leader = nodes, strikes, has_leader
        self._why_not = why_not
        self.left_out: Dict[str, str] = {}
        all_of_it = [ALIASES.get(name, name) for name in default]
        items = [item for word in text.split(",") for item in self._items(word, all_of_it)]
        timed = [item for item in items if item.begin is not None]
        if timed and len(timed) < len(items):
            raise ServerError(f"--nemesis {text}: either each strike has its time, such as kill@3, or none has")
        self.scheduled = sorted(timed, key=lambda item: item.begin or 0.0)
        self.drawn = [item for item in items if item.begin is None]
        self._test_apart()

    # --- The meaning of the text ---

    def _items(self, word: str, default: Sequence[str]) -> Iterator[Item]:
        if word == NONE:
            return
        name, colon, given = word.partition(":")
        if name != ALL:
            yield self._item(word)
            return
        for one in default:
            reason = self._too_few(one) or self._why_not(one)
            if reason is None:
                yield self._item(one + colon + given)
            elif not self._too_few(one):
                self.left_out[one] = reason

    def _item(self, word: str) -> Item:
        found = ITEM.fullmatch(word)
        name = re.split("[:@]", word)[0]
        name = ALIASES.get(name, name)
        if found is None and name in self.known:
            raise ServerError(f"--nemesis {word}: {name} takes a node, such as {name}:n1, a number or two for a parameter, such as {name}:lasting=0.5..2, and "
                              f"a time, such as {name}@3+0.5")
        if found is None or name not in self.known:
            raise ServerError(f"--nemesis {word}: it takes all, none, or of {', '.join(self.known)} any, such as kill,pause or kill:n1@3+0.5")
        node = found["node"]
        reason = self._reason(name)
        if reason is not None:
            left = [one for one in self.known if self._reason(one) is None]
            raise ServerError(f"--nemesis {name}: {reason}; there are {', '.join(left)}")
        if node == LEADER and not self.has_leader:
            raise ServerError(f"--nemesis {word}: this server does not say which node is its leader")
        number = int(node[1:]) - 1 if node not in (None, LEADER) else None
        if number is not None and not 0 <= number < self.nodes:
            raise ServerError(f"--nemesis {word}: there are the nodes n1 to n{self.nodes}")
        begin = None if found["begin"] is None else float(found["begin"])
        if begin is not None and (":lasting=" in word or ":rest=" in word):
            raise ServerError(f"--nemesis {word}: for a strike with a time, +SECONDS is its length, and not lasting=")
        lasting = float(found["lasting"]) if found["lasting"] else SCHEDULED
        return Item(word, name, number, node == LEADER, self._given(word, name, found["given"]), begin, lasting)

    def _too_few(self, name: str) -> Optional[str]:
        least = self.known[name].nodes
        if least <= self.nodes:
            return None
        return "one node has no other nodes to be cut off from" if self.nodes == 1 else f"it takes {least} nodes, and there are {self.nodes}"

    def _reason(self, name: str) -> Optional[str]:
        return self._too_few(name) or self._why_not(name)

    def _given(self, word: str, name: str, text: str) -> Dict[str, Parameter]:
        """All parameters of a strike: the given ones, and the defaults of the others."""
        known = {**self.known[name].parameters, "lasting": LASTING, "rest": REST}
        given = dict(known)
        for pair in text.split(":")[1:]:
            key, _, value = pair.partition("=")
            found = RANGE.fullmatch(value)
            if key not in known or found is None:
                raise ServerError(f"--nemesis {word}: {name} takes {', '.join(known)}, each a number or two, such as lasting=0.5 or lasting=0.5..2")
            least = float(found[1])
            most = least if found[2] is None else float(found[2])
            low, high = known[key].lowest, known[key].highest
            if not low <= least <= most <= high:
                raise ServerError(f"--nemesis {word}: {key} is from {low:g} to {high:g}, the least first")
            given[key] = Parameter(least, most, low, high)
        return given

    def _test_apart(self) -> None:
        """Tests that no two strikes of a schedule on the same process, or on the same clock, overlap."""
        for place, one in enumerate(self.scheduled):
            for other in self.scheduled[place + 1:]:
                lane = self.known[one.name].lane
                is_same = lane in ALONE and lane == self.known[other.name].lane and (one.node or 0) == (other.node or 0)
                if is_same and not one.at_leader and not other.at_leader and (other.begin or 0.0) < (one.begin or 0.0) + one.lasting:
                    raise ServerError(f"--nemesis {one.word},{other.word}: both are strikes on the {lane} of n{(one.node or 0) + 1}, and "
                                      "they overlap")

    @property
    def names(self) -> List[str]:
        """The names of the strikes that may come, in the order in which they are known."""
        named = {item.name for item in [*self.drawn, *self.scheduled]}
        return [name for name in self.known if name in named]

    def needs(self, what: str) -> bool:
        return any(what in self.known[name].needs for name in self.names)

    # --- Results ---

    def lanes(self, seed: int, seconds: float) -> List[Lane]:
        """Returns the lanes of strikes. Each lane is for a thread of its own."""
        if self.scheduled:
            return [Lane(iter(strikes), False) for strikes in apart([self._at_its_time(item) for item in self.scheduled])]
        found = []
        for lanes, at_once in self._at_once():
            items = [item for item in self.drawn if self.known[item.name].lane in lanes]
            for number in range(at_once if items else 0):
                found.append(Lane(self._drawn(items, random.Random(f"strikes {seed} {lanes[0]} {number}"), seconds), True))
        return found

    def _at_once(self) -> Iterator[Tuple[Sequence[str], int]]:
        """The lanes, and the number of simultaneous strikes of each lane: two, if this leaves a majority most of the time. A single node is
        never both down and cut off: both are the same for its clients, which need time for operations between strikes."""
        at_once = 2 if self.nodes > 3 else 1
        if self.nodes == 1:
            yield (PROCESS, LINKS), 1
        else:
            yield (PROCESS,), at_once
            yield (LINKS,), at_once
        yield (CLOCK,), 1
        yield (OTHER,), 1

    def _at_its_time(self, item: Item) -> Planned:
        values = {name: parameter.drawn(random.Random(item.word)) for name, parameter in item.given.items()
                  if name in self.known[item.name].parameters}
        return Planned(item.begin or 0.0, item.lasting, item.name, item.node or 0, True, item.at_leader, values)

    def _drawn(self, items: List[Item], draws: random.Random, seconds: float) -> Iterator[Planned]:
        now = min(QUIET, seconds * 0.1)
        while True:
            item = items[draws.randrange(len(items))]
            given = item.given
            now += min(given["rest"].drawn(draws), max(seconds * SHARE / 2, given["rest"].least))
            if now >= seconds:
                return
            lasting = min(given["lasting"].drawn(draws), max(seconds * SHARE, given["lasting"].least))
            at_leader = item.at_leader or item.node is None and self.has_leader and draws.random() < AT_LEADER
            node = item.node if item.node is not None else draws.randrange(self.nodes)
            values = {name: given[name].drawn(draws) for name in self.known[item.name].parameters}
            yield Planned(now, lasting, item.name, node, item.node is not None, at_leader, values, draws.random() >= UNSETTLED)
            now += lasting


def apart(strikes: Sequence[Planned]) -> List[List[Planned]]:
    """Distributes strikes over as few rows as possible. In each row no strike begins before the earlier one has ended."""
    rows: List[List[Planned]] = []
    for strike in strikes:
        for row in rows:
            if row[-1].begin + row[-1].lasting <= strike.begin:
                row.append(strike)
                break
        else:
            rows.append([strike])
    return rows

