"""The messages of a test of a server: its plan, and its result."""
from __future__ import annotations

from typing import Iterator, List

from ..live.run_folder import CAUSE, PAGE, RUN_PAGE
from . import crashes, losses
from .links import NAMESPACES, PROXY
from .run import Given, Outcome
from .strikes.plan import Plan


NETWORKS = {NAMESPACES: "; each in a network namespace", PROXY: "; links by a proxy on the loopback"}


def heading(given: Given, plan: Plan, network: str) -> str:
    name = given.server.__name__
    nodes = "one node" if given.nodes == 1 else f"{given.nodes} nodes"
    strikes = ", ".join(plan.names) or "no faults"
    planted = f"; planted: {given.server.plants[given.plant].text}" if given.plant else ""
    reasons = list(dict.fromkeys(plan.left_out.values()))
    left_out = "".join(f"left out: {', '.join(name for name, one in plan.left_out.items() if one == reason)}: {reason}\n"
                       for reason in reasons)
    return (f"{name}, {given.model}: {nodes}, {given.clients} clients, {given.seconds:g} seconds, seed {given.seed}; {strikes}"
            f"{NETWORKS.get(network, '')}{planted}\n{left_out}")


def text(outcome: Outcome) -> str:
    """The counts, the folder, and the verdict as the last line."""
    return "".join(line + "\n" for line in _lines(outcome))


def _lines(outcome: Outcome) -> Iterator[str]:
    if outcome.counts:
        yield f"{'':<10}{'ok':>10}{'fail':>10}{'info':>10}"
    for name, counted in sorted(outcome.counts.items()):
        yield f"{name:<10}" + "".join(f"{counted[kind]:>10,}" for kind in ("ok", "fail", "info"))
    done, timed_out = (sum(counted[kind] for counted in outcome.at_work.values()) for kind in ("ok", "info"))
    if done:
        yield (f"{done / outcome.seconds:,.0f} operations a second were ok, {100 * timed_out / (done + timed_out):.1f} % of those that "
               f"were not refused timed out; {outcome.events:,} events" + (f" in {outcome.parts} parts" if outcome.parts > 1 else ""))
    yield from outcome.not_judged
    if outcome.strikes:
        yield "strikes: " + ", ".join(f"{count} {name}" for name, count in sorted(outcome.strikes.items()) if count)
    yield f"folder: {outcome.folder}, its page: {outcome.folder / RUN_PAGE}"
    if (outcome.part / PAGE).exists():
        yield f"page of the bad key: {outcome.part / PAGE}"
    yield outcome.verdict or "no verdict"


def cause(outcome: Outcome) -> List[str]:
    """Returns the cause in the run's folder, if the run is not legal."""
    try:
        return (outcome.part / CAUSE).read_text(errors="replace").splitlines()
    except OSError:
        return losses.for_terminal(outcome.folder) or crashes.for_terminal(outcome.folder)
