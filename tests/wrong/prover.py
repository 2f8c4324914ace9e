"""Lets the prover check a crate with a wrong body in it, over the libraries that the gate has built, and reads what the prover says.

A check of the changed functions alone (`rattle check --only`) refuses no more than a check of the whole crate, which checks each function.
So its refusal counts. If it proves them, a caller or a lemma may still refuse the wrong body, and the whole crate is checked.
"""
from __future__ import annotations

import os
import pathlib
import re
import shutil
import subprocess
import tempfile
from typing import Dict, List, NamedTuple, Optional, Sequence, Tuple

from .edit import PARTS, Inapplicable, Wrong, planted

# The prover's message about a place, as an error or as a goal that it does not prove.
TOLD = re.compile(r"(?:\./)?(\S+?:\d+):\d+: (error: .*)|note: (?:\./)?(\S+?:\d+):\d+: (it is not proved .*)")
# A proof that names what the wrong body took away.
GONE = re.compile(r"has no field|is not in scope|has no `|which was (?:not admitted|rejected), w")
# A text that can't be read, so that no clause was tried.
UNREAD = re.compile(r"is not in scope|has no field|is no name|operand is missing|expected the end|cannot continue")
QUOTED = re.compile(r"`[^`]*`")
STALE = "Run the lower steps again"  # a library is not the one over which a library above it was built
LIMIT = re.compile(r"antt ran out of (?:stack|the (?:steps|memory) that)|outgrew the memory limit \(|stopped at the step limit \(")
NOT_PROVED = ("only=", "logic=not-proved")  # the beginnings of the last line of a check that came to an end

# How a wrong body can end. The first two are refusals.
CLAUSE, LIMITED = "clause", "limit"
NAME, PROVED, UNREADABLE, INAPPLICABLE, UNKNOWN = "name", "proved", "unreadable", "inapplicable", "unknown"
REFUSED = (CLAUSE, LIMITED)
MEANING = {
    CLAUSE: "refused",
    LIMITED: "refused by a limit of the prover",
    NAME: "refused only by a proof that names what it took away, so no clause was tried: keep the names",
    PROVED: "NOT REFUSED, the crate is still proved with it",
    UNREADABLE: "can't be read, so no clause was tried",
    INAPPLICABLE: "does not apply",
    UNKNOWN: "has no verdict",
}


class Outcome(NamedTuple):
    """How a try of a wrong body ended."""

    wrong: Wrong
    kind: str
    told: str  # the line that says it
    seconds: float  # of processor time
    is_kept: bool = False  # by an earlier run on this machine, over the very same files


class Checked(NamedTuple):
    status: int
    lines: List[str]
    seconds: float


class Crates:
    """The crates of crates.txt, with their lines."""

    def __init__(self, top: pathlib.Path) -> None:
        self.top = top
        lines = [line for line in (top / "crates.txt").read_text(encoding="utf-8").splitlines() if line.strip() and not line.startswith("#")]
        self.lines = {line.split()[0].rstrip(":"): line for line in lines}
        self.uses = {name: line.partition(":")[2].split() for name, line in self.lines.items()}

    def folder(self, name: str) -> pathlib.Path:
        return self.top / "crates" / name

    def below(self, name: str) -> List[str]:
        """The crates of this repository below a crate, each after those that it uses."""
        found: Dict[str, None] = {}
        for use in self.uses[name]:
            if use in self.uses:
                found.update(dict.fromkeys([*self.below(use), use]))
        return list(found)

    def files(self, name: str) -> List[pathlib.Path]:
        """The files of a crate that a proof reads."""
        return [path for part in PARTS for path in sorted((self.folder(name) / part).rglob("*")) if path.is_file()]


class Prover:
    """The toolchain that is here, and the libraries that the gate has built of this repository's crates."""

    def __init__(self, crates: Crates) -> None:
        self.crates = crates
        self.kit = pathlib.Path(_said("rt", "doc").strip()).parent
        self.version = _said("rt", "version").splitlines()[0]

    def library(self, name: str) -> pathlib.Path:
        if name in self.crates.uses:
            return self.crates.folder(name) / "out" / "rlib" / f"{name}.rlib"
        return self.kit / "rlibs" / f"{name}.rlib"

    def lacking(self, crate: str) -> Optional[str]:
        """A library below the crate that is not built, or was built before one of its files was last written; None if there is none."""
        for name in self.crates.below(crate):
            made = self.library(name) / "format"
            if not made.exists() or any(path.stat().st_mtime > made.stat().st_ctime for path in self.crates.files(name)):
                return name
        return None

    def check(self, crate: str, texts: Dict[str, str], functions: Sequence[str], kept: str) -> Checked:
        """Checks the crate, or these functions of it alone, with these texts in place of its own, over what the folder `kept` holds."""
        with tempfile.TemporaryDirectory(prefix="wrong-") as room, tempfile.TemporaryFile("w+", errors="replace") as said:
            for part in PARTS:
                if (self.crates.folder(crate) / part).is_dir():
                    shutil.copytree(self.crates.folder(crate) / part, pathlib.Path(room, part))
            for path, text in texts.items():
                pathlib.Path(room, path).write_text(text, encoding="utf-8")
            ran = subprocess.Popen(self._words(crate, functions, kept), cwd=room, stdin=subprocess.DEVNULL, stdout=said,
                                   stderr=subprocess.STDOUT)
            _, ended, used = os.wait4(ran.pid, 0)
            ran.returncode = os.WEXITSTATUS(ended) if os.WIFEXITED(ended) else -os.WTERMSIG(ended)
            said.seek(0)
            return Checked(ran.returncode, said.read().rstrip().splitlines() or [""], used.ru_utime + used.ru_stime)

    def _words(self, crate: str, functions: Sequence[str], kept: str) -> List[str]:
        is_program = (self.crates.folder(crate) / "src" / "main.rt").exists()
        words = [str(self.kit / "bin" / "rattle"), "check", "--crate-name", crate, "src/main.rt" if is_program else "src/lib.rt"]
        for name in ["std", *self.crates.uses[crate]]:
            words += ["--extern", f"{name}={self.library(name)}"]
        for name in ["std", *self.crates.below(crate)]:
            words += ["-L", f"dependency={self.library(name).parent}"]
        words += ["--antt-project", f"{self.kit}/rattle/logic/antt-project.json", "--logic-built", f"{self.kit}/logic_built"]
        words += ["--links", f"{crate}=", "--jobs", "1", "--incremental", kept]
        return words + [word for name in functions for word in ("--only", name)]

    def tried(self, wrong: Wrong, kept: str) -> Outcome:
        """Tries a wrong body: the changed functions, and then, if these are proved or there are none, the whole crate."""
        try:
            bodies = planted(wrong, self.crates.folder(wrong.crate))
        except Inapplicable as why:
            return Outcome(wrong, INAPPLICABLE, str(why), 0.0)
        lacking = self.lacking(wrong.crate)
        if lacking is not None:
            return Outcome(wrong, UNKNOWN, f"the library {lacking} was not built by the gate of the files that are here", 0.0)
        seconds = 0.0
        rounds: List[List[str]] = [bodies.functions, []] if bodies.functions else [[]]
        for functions in rounds:
            checked = self.check(wrong.crate, bodies.texts, functions, kept)
            kind, told = verdict(checked)
            seconds += checked.seconds
            if kind not in (PROVED, UNKNOWN):
                break
        return Outcome(wrong, kind, told, seconds)


def _said(*words: str) -> str:
    return subprocess.run(words, stdout=subprocess.PIPE, check=True).stdout.decode()


def verdict(checked: Checked) -> Tuple[str, str]:
    """How a check with a wrong body ended, and the line that says it."""
    lines, last = checked.lines, checked.lines[-1]
    found = [match for match in map(TOLD.match, lines) if match]
    told = [(match[1] or match[3], match[2] or match[4]) for match in found]
    said = [f"{place}: {text}" for place, text in told] or [last]
    if checked.status == 0:
        return PROVED, last
    if checked.status == 3 and any(LIMIT.search(line) for line in lines):
        return LIMITED, next((line for line in said if "error" in line), last)
    if checked.status != 1 or not told or not last.startswith(NOT_PROVED) or any(STALE in line for line in lines):
        unread = [line for line in lines if "error[" in line]
        return (UNREADABLE, unread[0]) if unread else (UNKNOWN, said[0])
    for place, text in told:
        if place.startswith(("src/", "specs/")) and (re.match("error: (?!`)", text) or UNREAD.search(QUOTED.sub("", text))):
            return UNREADABLE, f"{place}: {text}"
    clauses = [f"{place}: {text}" for place, text in told if not (place.startswith("proofs/") and GONE.search(text))]
    return (CLAUSE, clauses[0]) if clauses else (NAME, said[0])
