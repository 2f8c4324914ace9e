"""Live tests without an end: any number of events, objects and clients, by one program after another and side by side."""
from __future__ import annotations

from .handle import Handle
from .monitor import LongMonitor
from .objects import LongObject
from .operation import LongOperation

__all__ = ["Handle", "LongMonitor", "LongObject", "LongOperation"]
