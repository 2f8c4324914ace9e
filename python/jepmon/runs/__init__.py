"""`jepmon-runs`: all runs of a folder, as lines and as a page, index.html, with links to the page of each run.

summary.py  a run in one line, by its folder
index.py    the page; jepmon-test makes it again after each run
tool.py     the command
"""
from __future__ import annotations

from typing import List, Optional

__all__ = ["main"]


def main(words: Optional[List[str]] = None) -> int:
    from .tool import main as show

    return show(words)
