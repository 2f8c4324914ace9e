"""A run in one line, from its folder."""
from __future__ import annotations

import datetime
import pathlib
import re
from typing import Iterator, List, NamedTuple

from ..live.run_folder import AGAIN, COUNTS, LATEST, PAGE, RUN_PAGE
from ..rates.run import facts_of, parts_of, text_of, verdict_of

BEGUN = re.compile(r"The run began at (\S+)")
COUNT = re.compile(r"^[a-z]+: ([0-9]+) ok, ([0-9]+) fail, ([0-9]+) info$", re.M)


class Summary(NamedTuple):
    """A run. Fields that its folder lacks are empty."""

    name: str  # the name of its folder
    begun: str
    server: str
    object: str
    nemesis: str
    seconds: str
    operations: int
    verdict: str
    page: str  # the page of the run, relative to the folder of all runs
    why: str  # the page of the bad key

    @property
    def word(self) -> str:
        return self.verdict.split(" ")[0]


def summaries(folder: pathlib.Path) -> List[Summary]:
    """The runs of a folder, the newest first."""
    return sorted(map(summary, runs_of(folder)), key=lambda run: (run.begun, run.name), reverse=True)


def runs_of(folder: pathlib.Path) -> Iterator[pathlib.Path]:
    """The folders of runs: those that have a script which judges them again."""
    for path in folder.iterdir():
        if path.is_dir() and path.name != LATEST and (path / AGAIN).is_file():
            yield path


def summary(path: pathlib.Path) -> Summary:
    facts, begun = facts_of(path), BEGUN.search(text_of(path / AGAIN))
    counted = sum(int(count) for counts in COUNT.findall(text_of(path / COUNTS)) for count in counts)
    pages = [part / PAGE for part in parts_of(path) if (part / PAGE).is_file()]
    return Summary(
        path.name, date_of(begun[1]) if begun is not None else "", facts.get("server", ""), facts.get("object", ""), facts.get("nemesis", ""),
        facts.get("seconds", ""), counted, verdict_of(path), f"{path.name}/{RUN_PAGE}" if (path / RUN_PAGE).is_file() else "",
        str(pages[0].relative_to(path.parent)) if pages else "")


def date_of(text: str) -> str:
    try:
        return datetime.datetime.fromisoformat(text).strftime("%Y-%m-%d %H:%M:%S")
    except ValueError:
        return text
