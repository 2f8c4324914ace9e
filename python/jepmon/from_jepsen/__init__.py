"""Converts a recorded Jepsen history into a history that jepmon reads.

`turn` takes the text of a history, its bytes, or a file that is open for reading bytes. It returns a Turned: the lines in jepmon's form,
the notes on them, and the command that judges them. It raises a Refusal if the history can't be converted.
"""
from __future__ import annotations

from .refusal import Refusal
from .turn import Turned, turn

__all__ = ["Refusal", "Turned", "main", "turn"]


def main() -> int:
    """The command from-jepsen."""
    from . import tool

    return tool.main()
