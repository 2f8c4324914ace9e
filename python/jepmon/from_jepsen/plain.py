"""Reads most lines of a history by one regular expression: an event of a client with the fields that Jepsen writes, in the order of the
first event. This is for speed. A line that the expression does not match, or that collect.py does not take, is read field by field, with
the same result."""
from __future__ import annotations

import itertools
import re
from sys import intern
from typing import Any, Dict, Iterable, Iterator, List, NamedTuple, Optional, Pattern, Tuple

from ..edn import Element, Rows, Value
from ..forms.vocabulary import PARTS, RUNS
from .events import Row

NUMBER = "(?:0|[1-9][0-9]{0,17})"  # a number in its only usual spelling
INTEGER = "(?:0|-?[1-9][0-9]{0,17})"
FIELDS: Dict[str, str] = {
    ":type": "(?P<type>:invoke|:ok|:fail|:info)", ":f": "(?P<f>:read|:write|:cas|:enqueue|:dequeue|:add|:acquire|:release)",
    ":process": f"(?P<process>{NUMBER})", ":time": f"(?P<time>{NUMBER})", ":index": f"(?P<index>{NUMBER})",
}
PART = rf"(?:(?P<part>nil|{INTEGER})|\[(?P<pair>{INTEGER} {INTEGER})\])"
WITH_KEY = rf"\[(?P<key>{NUMBER}|:[a-z][a-z0-9]*) {PART}\]"
NEEDED = {":type", ":f", ":process", ":value"}
ATOM = rf'(?:{INTEGER}|nil|true|false|:[A-Za-z][A-Za-z0-9/._-]*|"[^"\\\n]*")'
APART = "|".join(sorted(RUNS | PARTS)) + "|run-id|test-id|test-name"  # fields that the general reader has to look at
OTHERS = rf"(?:, (?!(?:{'|'.join(FIELDS)}|:value|:(?:{APART})) ):[a-z][a-z0-9./-]* (?:{ATOM}|\[{ATOM}(?: {ATOM})*\]))*"  # such as :error :timeout
LINE = re.compile(r"[ \[(]*(\#[a-z.]+\.Op)?(\{[^\n]*\})[ \])\r]*$", re.M)  # with a map, or a record
KEY = re.compile(r"(?:\{|, )(:[a-z]+) ")
PROCESS = re.compile(r":process [0-9]")
FRONT = 1 << 16  # the first event of a client is searched for in at most this many characters
LONGEST = 1 << 13  # a run has at most this many characters


class Plain(NamedTuple):
    """A plain line of a history."""

    line: Pattern[str]  # with groups; the last group has all that follows, if a group is missing

    def find(self, text: str, place: int) -> Tuple[Rows, int]:
        """The groups of the plain lines that begin at this place, one after another, and the place behind these lines."""
        end = min(place + LONGEST, len(text))
        found = self.line.findall(text, place, end)
        rest = found[-1][-1]
        return found[:-1] if rest else found, end - len(rest)

    def order(self, run: Element) -> Tuple[List[int], List[int]]:
        """Each :index and each :time of a run; none if its events have none."""
        groups = self.line.groupindex
        return tuple([int(row[groups[name] - 1]) for row in run.rows] if name in groups else [] for name in ("index", "time"))  # type: ignore[return-value]

    def processes(self, run: Element) -> List[int]:
        """The process of each event of a run."""
        place = self.line.groupindex["process"] - 1
        return [int(row[place]) for row in run.rows]

    def events(self, run: Element, lone_key: Optional[Value], count: int) -> Iterator[Row]:
        """The events of a run, with `count` events before them."""
        columns = dict(zip(self.line.groupindex, zip(*run.rows)))
        parts: Iterable[Any] = columns["part"]
        if any(columns["pair"]):
            parts = [part or ("[", tuple(pair.split(" "))) for part, pair in zip(parts, columns["pair"])]
        keys = columns["key"] if lone_key is None else itertools.repeat(lone_key)
        indices = map(int, columns["index"]) if "index" in columns else itertools.count(count)
        found: Iterator[Any] = zip(map(intern, columns["type"]), map(int, columns["process"]), map(intern, columns["f"]), keys, parts, indices,
                                   itertools.count(run.line), itertools.repeat(None))
        return found


def plain_of(text: str, has_keys: bool) -> Optional[Plain]:
    """A reader for a history that begins with this text. None if none of the first lines is an event of a client."""
    fields = {**FIELDS, ":value": WITH_KEY if has_keys else PART}
    for line in LINE.finditer(text, 0, FRONT):
        known = [key for key in KEY.findall(line[2]) if key in fields]
        if NEEDED <= set(known) and len(set(known)) == len(known) and PROCESS.search(line[2]):
            *others, last = (f"{key} {fields[key]}" for key in known)
            event = re.escape(line[1] or "") + r"\{" + ", ".join(others) + f"{OTHERS}, {last}{OTHERS}" + r"\}"
            return Plain(re.compile(rf"{event}(?:\r?\n *|\Z)|(?P<rest>(?s:.+))"))
    return None
