"""The path of the program `jepmon`, and its wide kinds."""
from __future__ import annotations

import functools
import os
import pathlib
import re
import subprocess
import sys
from typing import FrozenSet, Iterator, List, Optional

from ..history.kinds import WIDE
from ..tools.errors import ProgramError

CURE = "`./jepmon install DIR`, put DIR on the PATH, or set JEPMON"
PROMPT = 5.0  # the program answers [:hello], or prints its help, within this number of seconds
HELLO = re.compile(r'\{:jepmon "[^"]*" .*\}\n')
KIND = re.compile("wide-[a-z]+(?:-[a-z]+)*")


def find_program(named: Optional[str] = None) -> str:
    """The path of the program: the named one, or the one that JEPMON names. Otherwise it is the program that was built or released in the
    repository of this package. Otherwise it is the `jepmon` in the Python interpreter's folder or on the PATH. Builds nothing."""
    found = named or os.environ.get("JEPMON")
    if found:
        return os.fspath(found)
    for path in _candidates():
        if _is_program(path):
            return str(path)
    raise ProgramError(f"there is no jepmon: {CURE}")


def _candidates() -> Iterator[pathlib.Path]:
    top = pathlib.Path(__file__).resolve().parents[3]
    if (top / "crates" / "jepmon").is_dir():
        yield top / "crates" / "jepmon" / "out" / "jepmon"
        yield top / "dist" / "jepmon"
    yield pathlib.Path(sys.prefix) / "bin" / "jepmon"
    for folder in os.environ.get("PATH", os.defpath).split(os.pathsep):
        yield pathlib.Path(folder or ".") / "jepmon"


def _is_program(path: pathlib.Path) -> bool:
    """Whether this is a program of machine code: the script ./jepmon of a repository would start a build."""
    if not os.access(path, os.X_OK) or not path.is_file():
        return False
    try:
        with open(path, "rb") as file:
            return file.read(4) == b"\x7fELF"
    except OSError:
        return False


def wide_kinds(program: Optional[str] = None) -> FrozenSet[str]:
    """The wide kinds that the program has. Versions up to 1.4.0 have none, and 1.5.0 has wide-register and wide-set."""
    return _wide_kinds(find_program(program))


@functools.lru_cache(maxsize=None)
def _wide_kinds(name: str) -> FrozenSet[str]:
    said = _said([name, "script"], b"[:hello]\n")
    if said is not None and not HELLO.fullmatch(said):
        said = _said([name, "check", "--help"])  # a program before 1.6 refuses [:hello], and its help names the kinds
    return frozenset(WIDE.values()).intersection(KIND.findall(said or ""))


def _said(words: List[str], raw: bytes = b"") -> Optional[str]:
    """The text that the program prints; None if it can't be run, or does not end in time."""
    try:
        return subprocess.run(words, input=raw, stdout=subprocess.PIPE, stderr=subprocess.DEVNULL, timeout=PROMPT).stdout.decode("utf-8", "replace")
    except (OSError, subprocess.TimeoutExpired):
        return None  # the fault is reported when the program is asked for a verdict
