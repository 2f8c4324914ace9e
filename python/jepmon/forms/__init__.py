"""Forms of recorded histories: the place of a history, its form, and the conversion of each form into jepmon's own."""
from __future__ import annotations


class Refused(Exception):
    """A history can't be judged, for the reason in one line."""


class Beyond(Refused):
    """The history is too large for one check. Shards of it can be judged."""
