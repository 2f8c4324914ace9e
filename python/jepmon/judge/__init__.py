"""`jepmon-judge`: from a recorded history of any form to the verdict and its cause."""
from __future__ import annotations

from .tool import main

__all__ = ["main"]
