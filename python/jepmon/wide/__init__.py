"""Judges keys with many clients with the help of later events.

The program judges a history event by event, and counts the possible outcomes. With many operations open at once there are too many, and a
key is `over`. For a recorded history, this package can search for an order of the operations, or for an illegal part. You need not trust
the searches: the program judges their results.
"""
from __future__ import annotations

from .decide import Decided, decide
from .operation import Clock

__all__ = ["Clock", "Decided", "decide"]
