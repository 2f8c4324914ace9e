"""The tables of a page of rates: latencies, effects of faults, and keys."""
from __future__ import annotations

import collections
import html
from typing import Dict, Iterable, List, NamedTuple, Optional, Sequence, Tuple

from ..history.fault_notes import OVER
from ..history.fault_texts import kind_of
from .gathered import OUTCOMES, Gathered
from .given import KeyRow
from .history import Fault

SHARES = ((0.5, "50 %"), (0.9, "90 %"), (0.99, "99 %"), (0.999, "99.9 %"))
FAULTS = 400  # the number of faults in the list; they are those with the longest time without an ok
KEYS = 2000  # the number of keys in the list: first those that are not legal, then the newest
SECOND = 1_000_000_000
Cell = Tuple[str, str]  # a text, and the class of its cell


class Effect(NamedTuple):
    """The effect of a fault on clients, in nanoseconds."""

    fault: Fault
    without: int  # the longest time without an ok that overlaps the fault
    until_ok: Optional[int]  # the time from the fault's end to the next ok; None if there was none


def latencies(gathered: Gathered) -> str:
    """The outcomes of each operation, and the latencies of operations that were ok."""
    rows: List[List[Cell]] = []
    for name in gathered.names:
        row = [(name, "")] + [(f"{gathered.count(name, outcome):,}", "number") for outcome in OUTCOMES]
        row.append((f"{gathered.open[name]:,}", "number"))
        sort = (name, "ok")
        known = sort in gathered.most
        row += [(of_time(gathered.quantile(sort, share)) if known else "", "number") for share, _ in SHARES]
        rows.append(row + [(of_time(gathered.most[sort]) if known else "", "number")])
    return table(["operation", *OUTCOMES, "open", *(said for _, said in SHARES), "longest"], rows)


def effects(gathered: Gathered, faults: Sequence[Fault]) -> List[Effect]:
    """The effect of each fault. The note that all faults are over is not a fault."""
    found = []
    for fault in faults:
        if fault.text == OVER:
            continue
        after = gathered.oks.after(fault.end)
        found.append(Effect(fault, gathered.oks.longest_gap(fault.begin, fault.end), None if after is None else max(0, after - fault.end)))
    return found


def kinds(found: Sequence[Effect]) -> str:
    """A row for each kind of fault."""
    of_kind: Dict[str, List[Effect]] = collections.defaultdict(list)
    for effect in found:
        of_kind[kind_of(effect.fault.text)].append(effect)
    rows: List[List[Cell]] = []
    for kind, mine in of_kind.items():
        untils = [effect.until_ok for effect in mine]
        never = any(until is None for until in untils)
        rows.append([(kind, ""), (f"{len(mine):,}", "number"), (of_seconds(sum(each.fault.end - each.fault.begin for each in mine)), "number"),
                     (of_seconds(max(each.without for each in mine)), "number"),
                     ("none came" if never else of_seconds(max(until or 0 for until in untils)), "number")])
    return table(["fault", "times", "seconds in all", "longest without an ok", "from its end to the next ok, at most"], rows)


def single(found: Sequence[Effect]) -> str:
    """A row for each fault, by time."""
    shown = sorted(sorted(found, key=lambda each: -each.without)[:FAULTS], key=lambda each: each.fault.begin)
    rows: List[List[Cell]] = []
    for effect in shown:
        fault = effect.fault
        rows.append([(fault.text, ""), (of_seconds(fault.begin), "number"), (of_seconds(fault.end), "number"),
                     (of_seconds(effect.without), "number"),
                     ("none came" if effect.until_ok is None else of_seconds(effect.until_ok), "number")])
    return table(["fault", "begins", "ends", "longest without an ok", "from its end to the next ok"], rows)


def keys(rows: Sequence[KeyRow]) -> str:
    """Returns the keys. Those that are not legal come first."""
    shown = sorted(rows, key=lambda row: row.status == "legal")[:KEYS]
    made: List[List[Cell]] = []
    for row in shown:
        counts = row.counts
        name = f'<a href="{html.escape(row.link)}">{html.escape(row.name)}</a>' if row.link else html.escape(row.name)
        made.append([(name, "html"), (row.part, ""), (row.status, "" if row.status == "legal" else "bad")]
                    + [(f"{count:,}", "number") for count in (counts.ok, counts.fail, counts.info, counts.open)]
                    + [(of_seconds(counts.begin), "number"), (of_seconds(counts.end), "number")])
    return table(["key", "part", "status", "ok", "fail", "info", "open", "first event", "last event"], made)


def table(head: Iterable[str], rows: Iterable[Sequence[Cell]]) -> str:
    lines = ["<table><thead><tr>", *(f"<th>{html.escape(name)}</th>" for name in head), "</tr></thead>\n<tbody>"]
    for row in rows:
        cells = (f"<td>{text}</td>" if kind == "html" else f'<td class="{kind}">{html.escape(text)}</td>' if kind else
                 f"<td>{html.escape(text)}</td>" for text, kind in row)
        lines.append(f"<tr>{''.join(cells)}</tr>\n")
    return "".join([*lines, "</tbody></table>"])


def of_seconds(time: int) -> str:
    return f"{time / SECOND:,.2f} s"


def of_time(time: int) -> str:
    """A latency, in milliseconds to three digits."""
    value = time / 1e6
    return f"{value:,.0f} ms" if value >= 99.5 else f"{value:.1f} ms" if value >= 9.95 else f"{value:.2f} ms" if value >= 0.01 else f"{value:.3f} ms"
