"""Explains a verdict or a refusal of `jepmon check` by the events of the file."""
from __future__ import annotations

__all__ = ["main"]


def main() -> int:
    """The command explain."""
    from . import tool

    return tool.main()
