"""The text of a fault: its effect, its kind, and its nodes. jepmon-test notes a strike as

    n1 is down, by kill -9 [kill n1, process; while slow n2]

A test of the user's own uses any text. For such a text the kind is the text without the names of nodes."""
from __future__ import annotations

import re
from typing import List

STRIKE = re.compile(r"(?P<text>.+) \[(?P<name>[a-z-]+) (?P<node>n[0-9]+), [^\]]*\]")
NODE = re.compile(r"\bn[0-9]+\b")


def plain(text: str) -> str:
    """The effect, without the additions of jepmon-test."""
    found = STRIKE.fullmatch(text)
    return found["text"] if found is not None else text


def kind_of(text: str) -> str:
    """The name of the strike, or the text without the nodes that it hits."""
    found = STRIKE.fullmatch(text)
    return found["name"] if found is not None else NODE.sub("\u2026", text)


def nodes_of(text: str) -> List[str]:
    """Returns the nodes that the text names, each once."""
    found = STRIKE.fullmatch(text)
    return [found["node"]] if found is not None else list(dict.fromkeys(NODE.findall(text)))
