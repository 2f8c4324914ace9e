"""The page of rates of a run or of a recorded history: operations per second by outcome, latencies, and the effects of faults.

    gathered = rates.Gathered()
    found = rates.read(lines, gathered)         # a history with times, an event a line
    text = rates.render(rates.RatesPage(verdict, gathered, found.faults))

history.py reads, gathered.py counts, charts.py and strips.py draw, tables.py lists, document.py puts the page together; run.py writes it
into the folder of a run.
"""
from __future__ import annotations

from .document import render
from .gathered import Gathered
from .given import KeyRow, RatesPage, Section
from .history import Fault, Key, read

__all__ = ["Fault", "Gathered", "Key", "KeyRow", "RatesPage", "Section", "read", "render"]
