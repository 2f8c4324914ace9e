"""The needs of strikes on this machine, and whether they are met: tested before anything starts."""
from __future__ import annotations

from typing import TYPE_CHECKING, Callable, Dict, Optional

from . import clocks, disks, places
from .links import PROXY
from .server import ALL_STRIKES, Server
from .strikes import power
from .strikes.kind import NEEDS_CLOCK, NEEDS_DISK, NEEDS_PACKETS
from .strikes.known import strikes_of
from .strikes.plan import Plan

if TYPE_CHECKING:
    from .run import Given


def planned(given: Given) -> Plan:
    """The strikes for --nemesis. Raises a ServerError if a named strike is impossible; its text also names the possible strikes."""
    server = given.server
    strikes = strikes_of(server)
    here: Dict[str, Callable[[], Optional[str]]] = {NEEDS_PACKETS: lambda: packets(given.network), NEEDS_DISK: disks.why_not,
                                                        NEEDS_CLOCK: clocks.why_not}
    found: Dict[str, Optional[str]] = {}  # for each need: the reason why it is not met, or None

    def why_not(name: str) -> Optional[str]:
        if name in server.cannot:
            return server.cannot[name]
        for need in sorted(strikes[name].needs & here.keys()):
            if need not in found:
                found[need] = here[need]()
            if found[need]:
                return found[need]
        return None

    on_power = tuple(power.STRIKES) if server.survives_power else ()
    default = server.bears.get(given.model, (*ALL_STRIKES, *on_power, *server.strikes))
    return Plan(given.nemesis, given.nodes, strikes, default, why_not, has_leader=server.leader is not Server.leader)


def packets(network: str) -> Optional[str]:
    """Returns the reason why faults of packets are impossible. None if they are possible."""
    if network == PROXY:
        return "the proxy carries bytes, not packets: this needs --network namespaces"
    reason = places.why_not()
    return f"it needs network namespaces, which are not possible here: {reason}" if reason else None
