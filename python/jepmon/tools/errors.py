"""The exceptions that end a command of this package with one line on standard error and status 3."""
from __future__ import annotations


class ProgramError(Exception):
    """There is no program `jepmon`, or it gave no valid reply."""


class OutputError(Exception):
    """Standard output, or a file, can't be written."""
