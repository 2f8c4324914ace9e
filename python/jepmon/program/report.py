"""The report of `jepmon check`: a line for each key, and the verdict. No other module reads or writes such lines."""
from __future__ import annotations

import re
from typing import List, NamedTuple, Optional, Sequence, Tuple

from ..history.kinds import WIDE, kind_of, model_of

STATUSES = {"legal": 0, "illegal": 1, "unknown": 2, "refused": 3}  # the exit status, by the first word of the last line
KEY_LINE = re.compile(r"key (\d+) model (\S+) budget (\d+) events (\d+) status ([a-z-]+)(?: (\d+))?")
BAD_KEY = re.compile(r"(illegal|unknown) key (\d+) index (\d+)")
REFUSAL = re.compile(r"refused .* event (\d+)")
DEAD = ("dead", "dead-by")  # the statuses of an illegal key
GOOD = ("alive", "confirmed")  # the statuses of a legal key; a key with another status is unknown

Place = Tuple[int, int]  # the index of an event, and the key


class KeyLine(NamedTuple):
    """The line of a report on one key."""

    key: int
    model: str  # the model of the object, whichever of its kinds was judged
    budget: int
    events: int
    status: str  # "alive", "dead" or "over"; in reports of jepmon-judge also others (docs/FORMATS.md)
    index: Optional[int]  # type: ignore[assignment]  # the event from which on it is dead or over (tuple has a method of this name)
    is_wide: bool = False  # whether it was judged as the wide kind of the model

    @property
    def kind(self) -> str:
        """The model as the program names it."""
        return kind_of(self.model, not self.is_wide)

    @property
    def text(self) -> str:
        found = "" if self.index is None else f" {self.index}"
        return f"key {self.key} model {self.kind} budget {self.budget} events {self.events} status {self.status}{found}"


def key_line(text: str) -> Optional[KeyLine]:
    """Reads the line of a key; None if it is another line."""
    match = KEY_LINE.fullmatch(text)
    if match is None:
        return None
    key, kind, budget, events, status, index = match.groups()
    return KeyLine(int(key), model_of(kind), int(budget), int(events), status, None if index is None else int(index), kind in WIDE.values())


class Verdict(NamedTuple):
    """The last line of a report without a refusal."""

    word: str  # "legal", "illegal" or "unknown"
    found: Optional[Place] = None  # the event and key that it names
    keys: int = 0  # the number of keys of the history, if they were counted

    @property
    def line(self) -> str:
        return self.word if self.found is None else f"{self.word} key {self.found[1]} index {self.found[0]}"

    @property
    def status(self) -> int:
        return STATUSES[self.word]


def verdict_in(line: str) -> Optional[Verdict]:
    """Reads a verdict that names a key; None if it is another line."""
    found = BAD_KEY.fullmatch(line)
    return Verdict(found[1], (int(found[3]), int(found[2]))) if found else None


def verdict_of(dead: Optional[Place], undecided: Optional[Place], keys: int = 0) -> Verdict:
    """Gives the verdict. `dead` is the first event at which a key is dead, and `undecided` the first at which a key is not decided."""
    return Verdict("illegal", dead, keys) if dead else Verdict("unknown", undecided, keys) if undecided else Verdict("legal", None, keys)


class Report(NamedTuple):
    """The output of a check."""

    text: str  # standard output
    keys: List[KeyLine]
    verdict: str  # the last line
    word: str  # the first word of the verdict: "legal", "illegal", "unknown" or "refused"
    key: Optional[int]
    index: Optional[int]  # type: ignore[assignment]  # the index of the event that the verdict names, or of the refused event
    status: int
    error: str  # standard error


def report_of(output: str, error: str, status: int) -> Report:
    """Reads the output of a check. If the output is empty, the refusal is on standard error."""
    refusals = [line for line in error.splitlines() if line.startswith("refused ")]  # the lines after the refusal have its usual cause
    lines = output.splitlines() or refusals or error.splitlines() or ["refused"]
    keys = [found for found in map(key_line, lines) if found is not None]
    verdict, refusal = verdict_in(lines[-1]), REFUSAL.match(lines[-1])
    index, key = verdict.found if verdict and verdict.found else (int(refusal[1]) if refusal else None, None)
    return Report(output, keys, lines[-1], lines[-1].split(" ")[0], key, index, status, error)


def report_on(lines: Sequence[KeyLine], verdict: Verdict, error: str = "") -> Report:
    """The report with these lines and this verdict."""
    index, key = verdict.found or (None, None)
    text = "".join(f"{line}\n" for line in [*(line.text for line in lines), verdict.line])
    return Report(text, list(lines), verdict.line, verdict.word, key, index, verdict.status, error)
