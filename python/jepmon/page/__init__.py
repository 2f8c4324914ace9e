"""The page of a key: a self-contained page of HTML that shows why it is illegal, or unknown; and the same bars as text.

    from jepmon import page
    from jepmon.objects import configurations as walk
    given = page.PageInput(verdict, key, events, model, .., walked=page.walked(walk.walk(events, model, budget), names))
    page.render(given)     # one text of HTML, without anything from elsewhere
    page.bars(given, 100)  # the bars for a terminal of 100 columns
"""
from __future__ import annotations

from .bars import bars
from .from_order import ordered
from .from_walk import walked
from .given import End, Fault, Other, PageInput, Walked
from .document import render

__all__ = ["End", "Fault", "Other", "PageInput", "Walked", "bars", "ordered", "render", "walked"]
