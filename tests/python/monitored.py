"""The common parts of the Monitor's tests: the program, stores in this process, and a folder for runs."""
from __future__ import annotations

import os
import pathlib
import subprocess
import tempfile
import unittest
from typing import Dict, Optional

from jepmon.program import Options, ProgramError, find_program


class Monitored(unittest.TestCase):
    """A test that needs the program; it is skipped where there is none."""

    program = ""

    def setUp(self) -> None:
        try:
            self.program = find_program()
        except ProgramError as fault:
            self.skipTest(str(fault))
        room = tempfile.TemporaryDirectory()
        self.addCleanup(room.cleanup)
        self.room = pathlib.Path(room.name)

    def verdict_of(self, history: pathlib.Path, options: Options = Options(64)) -> str:
        """The output of `jepmon check` for a history."""
        ran = subprocess.run([self.program, "check", str(history), *options.words()], stdout=subprocess.PIPE)
        return ran.stdout.decode().splitlines()[-1]

    def verdict_by(self, folder: pathlib.Path) -> str:
        """The output of the script in the folder of a run."""
        ran = subprocess.run([folder / "judge-again"], stdout=subprocess.PIPE, env={**os.environ, "JEPMON": self.program})
        return ran.stdout.decode().splitlines()[-1]


class Server:
    """A store that keeps nothing: a kill loses all that it holds, and what is asked of it until it starts again is refused."""

    def __init__(self) -> None:
        self.held: Dict[int, int] = {}
        self.is_up = True
        self.is_slow = False

    def put(self, key: int, value: int) -> None:
        self._ask()
        self.held[key] = value

    def get(self, key: int) -> Optional[int]:
        self._ask()
        return self.held.get(key)

    def kill(self) -> None:
        self.held.clear()
        self.is_up = False

    def _ask(self) -> None:
        if self.is_slow:
            raise TimeoutError
        if not self.is_up:
            raise ConnectionRefusedError
