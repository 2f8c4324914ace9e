"""The notes of a strike in the history: begin-fault and end-fault of notes.py, both with one text:

    n1 is down, by kill -9 [kill n1, process]
    all links of n2 are slow [slow n2, links, delay=0.05, jitter=0.01; while kill n1, pause n3]

The effect comes first. The brackets have the strike's name and node, its lane, its parameters, and the strikes that were active when it
began. So if two strikes overlap, the note of the later one names the earlier one.
"""
from __future__ import annotations

import re
from typing import Dict, Mapping, NamedTuple, Optional, Sequence, Tuple

TEXT = re.compile(r"(?P<text>.+) \[(?P<name>[a-z-]+) (?P<node>n[0-9]+), (?P<lane>[a-z]+)(?P<parameters>(?:, [a-z_]+=[^,;\]]+)*)"
                  r"(?:; while (?P<during>[^\]]+))?\]")


class Told(NamedTuple):
    """A strike, as its note in the history describes it."""

    text: str
    name: str
    node: str
    lane: str
    parameters: Mapping[str, float] = {}
    during: Tuple[str, ...] = ()  # the active strikes, such as "kill n1"

    @property
    def short(self) -> str:
        return f"{self.name} {self.node}"

    def note(self) -> str:
        given = "".join(f", {name}={value:.6g}" for name, value in self.parameters.items())
        during = f"; while {', '.join(self.during)}" if self.during else ""
        return f"{self.text} [{self.short}, {self.lane}{given}{during}]"


def told(text: str, name: str, node: str, lane: str, values: Mapping[str, float], during: Sequence[str]) -> Told:
    return Told(text.format(node=node, **values), name, node, lane, dict(values), tuple(during))


def read(note: str) -> Optional[Told]:
    """The strike of a note's text. None for other notes."""
    found = TEXT.fullmatch(note)
    if found is None:
        return None
    parameters: Dict[str, float] = {}
    for item in found["parameters"].split(", ")[1:]:
        name, _, value = item.partition("=")
        try:
            parameters[name] = float(value)
        except ValueError:
            return None
    return Told(found["text"], found["name"], found["node"], found["lane"], parameters,
                tuple(found["during"].split(", ")) if found["during"] else ())
