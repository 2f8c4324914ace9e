"""Judges recorded histories of any length, of any number of keys and clients, by the program on shards of them.

    from jepmon import program, shards
    report = shards.check("history.edn", program.Options(concurrency=200), jobs=4)

docs/guide/LARGE.md says why the report is, byte for byte, that of one check without limits, and what each file has.
"""
from __future__ import annotations

from .checking import check, opened
from .doubt import ShardsError
from .progress import Progress
from .session import Refused, Session

__all__ = ["Progress", "Refused", "Session", "ShardsError", "check", "main", "opened"]


def main() -> int:
    """The tool `jepmon-shards`."""
    from .tool import main as tool

    return tool()
