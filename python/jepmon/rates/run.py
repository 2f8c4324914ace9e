"""The page of a run, made from its folder: for runs of jepmon-test, Monitor and LongMonitor, legal or not, also for an interrupted run."""
from __future__ import annotations

import json
import pathlib
import re
import sys
from typing import Dict, Iterator, List, NamedTuple, Optional, Tuple

from ..live.run_folder import AGAIN, CAUSE, CLIENTS_LOG, COUNTS, CRASH, HISTORY, LOST, NAMES, PAGE, PART, RUN_FACTS, RUN_PAGE, VERDICT, write_whole
from ..program.report import BAD_KEY
from .document import render
from .gathered import OUTCOMES, Gathered
from .given import KeyRow, RatesPage, Section
from .history import Fault, read

MOST = 1 << 29  # a page reads at most this many bytes of histories (some five million events), unless the user asks for all
NO_VERDICT = "no verdict"
NAME = re.compile(r"([0-9]+) is '(.*)'$", re.M)


class Drawn(NamedTuple):
    """The files of a run, as read."""

    gathered: Gathered
    faults: List[Fault]
    keys: List[KeyRow]
    notes: List[str]


def leave(folder: pathlib.Path, is_said: bool = False) -> None:
    """Writes the page of a run into its folder. Raises nothing, since a failure here must not change the verdict. The message about the
    folder may have been printed already."""
    try:
        write_whole(folder / RUN_PAGE, render(page_of(folder)))
    except OSError as fault:
        if not is_said:
            print(f"jepmon: {folder / RUN_PAGE} can't be written: {fault.strerror}", file=sys.stderr)
    except Exception as fault:
        print(f"jepmon: {folder} has no {RUN_PAGE}, because of a fault of jepmon itself: {fault!r}", file=sys.stderr)


def page_of(folder: pathlib.Path, whole: bool = False) -> RatesPage:
    """The page of the run in this folder. For a long run it has only the newest parts, unless `whole` is set."""
    drawn = read_parts(folder, whole)
    facts = facts_of(folder)
    command = facts.pop("command", "")
    counts = [(outcome, f"{sum(drawn.gathered.count(name, outcome) for name in drawn.gathered.names):,}") for outcome in OUTCOMES]
    sections = [Section("Cause" if part == folder else f"Cause, in {part.name}", text)
                for part in parts_of(folder) for text in [text_of(part / CAUSE)] if text]
    lost = text_of(folder / LOST)
    if lost:
        sections.append(Section("Lost messages", lost))
    crash = text_of(folder / CRASH)
    if crash:
        sections.append(Section("Crash", crash))
    return RatesPage(verdict_of(folder), drawn.gathered, drawn.faults, drawn.keys,
                     [("run", folder.absolute().name), *facts.items(), *counts], command, list(links(folder)), sections, drawn.notes)


# --- The files of the folder ---


def parts_of(folder: pathlib.Path) -> List[pathlib.Path]:
    """The folders with histories: the run's own, or those of its parts."""
    if (folder / HISTORY).exists():
        return [folder]
    return sorted((path.parent for path in folder.glob(f"{PART}*/{HISTORY}")), key=lambda path: (len(path.name), path.name))


def verdict_of(folder: pathlib.Path) -> str:
    """The first line of the run's verdict. Empty if the test was killed."""
    return text_of(folder / VERDICT).split("\n")[0] or f"{NO_VERDICT}: the test was killed, or is still running"


def facts_of(folder: pathlib.Path) -> Dict[str, str]:
    """Returns the facts of the test about the run. Empty if the test has left none."""
    try:
        found = json.loads(text_of(folder / RUN_FACTS) or "{}")
    except ValueError:
        return {}
    return {str(name): str(value) for name, value in found.items()} if isinstance(found, dict) else {}


def text_of(path: pathlib.Path) -> str:
    try:
        return path.read_text("utf-8", errors="replace")
    except OSError:
        return ""


def links(folder: pathlib.Path) -> Iterator[Tuple[str, str]]:
    """Further things to look at, as links on the page."""
    for part in parts_of(folder):
        if (part / PAGE).exists():
            there = (part / PAGE).relative_to(folder)
            yield f"the bad key{'' if part == folder else f' of {part.name}'}", str(there)
    for path in sorted([*folder.glob("n*.log"), *folder.glob("n*.data")]):
        yield path.name, path.name
    for name in (CLIENTS_LOG, LOST, CRASH, VERDICT, COUNTS, AGAIN):
        if (folder / name).exists():
            yield name, name


# --- The histories ---


def read_parts(folder: pathlib.Path, whole: bool) -> Drawn:
    gathered, faults, keys = Gathered(), [], []
    parts = parts_of(folder)
    chosen = parts if whole else newest(parts)
    untimed = 0
    for part in chosen:
        with open(part / HISTORY, encoding="utf-8", errors="replace", newline="\n") as lines:
            found = read(lines, gathered)
        untimed += found.untimed
        faults += found.faults
        statuses = Statuses(part)
        for number, counts in found.keys.items():
            status = statuses.of(number)
            link = str((part / PAGE).relative_to(folder)) if status != "legal" and number == statuses.bad and (part / PAGE).exists() else ""
            keys.append(KeyRow(statuses.names.get(number, str(number)), "" if part == folder else part.name, status, counts, link))
    return Drawn(gathered, faults, keys, list(notes(folder, parts, chosen, untimed)))


def newest(parts: List[pathlib.Path]) -> List[pathlib.Path]:
    """Returns the newest parts, as many as can be read in some seconds, and all parts that are not legal."""
    chosen, left = [], MOST
    for part in reversed(parts):
        left -= (part / HISTORY).stat().st_size
        if left >= 0 or part == parts[-1] or (part / PAGE).exists():
            chosen.append(part)
    return chosen[::-1]


def notes(folder: pathlib.Path, parts: List[pathlib.Path], chosen: List[pathlib.Path], untimed: int) -> Iterator[str]:
    """The parts that the page does not show."""
    if len(chosen) < len(parts):
        yield f"Shown are the newest {len(chosen)} of {len(parts)} parts, and those that are not legal; jepmon-runs --whole shows all."
    removed = text_of(folder / "parts.txt").count(": removed, ")
    if removed:
        yield f"{removed} legal parts were removed (keep): the page does not show them."
    if untimed:
        yield f"{untimed:,} events have no time: the page does not show them."


class Statuses:
    """The facts about the keys of a part."""

    def __init__(self, part: pathlib.Path) -> None:
        verdict, counts = text_of(part / VERDICT), text_of(part / COUNTS)
        self.names = {int(number): name for number, name in NAME.findall(text_of(part / NAMES))} if part.name.startswith(PART) else {}
        self._bad = {int(key): f"{word} at event {index}" for word, key, index in BAD_KEY.findall(f"{counts}\n{verdict}")}
        self._other = "legal" if verdict.split(" ")[0].strip() in ("legal", "illegal", "unknown") else NO_VERDICT
        found = BAD_KEY.match(verdict)
        self.bad: Optional[int] = int(found[2]) if found is not None else None  # the key that has the page

    def of(self, key: int) -> str:
        return self._bad.get(key, self._other)
