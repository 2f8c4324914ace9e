"""Which wrong bodies the last release run tried, and which of them are due, since something that they rest on has changed.

`./check release` tries every wrong body and then writes one line, `dist/jepmon.refused`:

    refused 149 files DIGEST toolchain LINE

The line says how many wrong bodies were refused, the digest of all files that the run read, and the toolchain. It names no commit: the base
is the newest commit here whose files have this digest. So a line that nobody's files have, made by hand or left over, is seen. A wrong body
is due if its text, or its crate's src/, specs/, proofs/ or line of crates.txt, differs from the base. All are due if the toolchain or
HANDLES differs, or if there is no line yet.
"""
from __future__ import annotations

import hashlib
import pathlib
import re
import subprocess
from typing import Dict, List, NamedTuple, Optional, Sequence, Tuple

from .edit import PARTS, Wrong

RECORD = "dist/jepmon.refused"
LINE = re.compile(r"refused ([0-9]+) files ([0-9a-f]{64}) toolchain (.+)\n")
FARTHEST = 400  # commits that are looked through for the base
READ = ("wrong", "crates", "crates.txt", "HANDLES")  # below which the files lie that a run reads
Files = Dict[str, str]  # the digest that git gives each file, by its path


class Record(NamedTuple):
    """The line that the last release run wrote."""

    refused: int
    files: str
    toolchain: str

    @property
    def line(self) -> str:
        return f"refused {self.refused} files {self.files} toolchain {self.toolchain}\n"


class Due(NamedTuple):
    """The wrong bodies that are due, with the reason of each, and what is wrong with the record."""

    reasons: Dict[str, str]  # by name; a wrong body that is not here stands by the last release
    faults: List[str]


def is_read(path: str) -> bool:
    """Whether a run reads this file: a wrong body, a file that a proof reads, or what says how crates are proved."""
    parts = path.split("/")
    if parts[0] == "crates":
        return len(parts) > 3 and parts[2] in PARTS
    return parts[0] in READ and (parts[0] != "wrong" or path.endswith(".edit"))


def digest(files: Files) -> str:
    return hashlib.sha256("".join(f"{path} {files[path]}\n" for path in sorted(files)).encode()).hexdigest()


# --- Git ---


def _git(top: pathlib.Path, *words: str) -> str:
    ran = subprocess.run(["git", *words], cwd=top, stdout=subprocess.PIPE, stderr=subprocess.DEVNULL)
    return ran.stdout.decode(errors="replace") if ran.returncode == 0 else ""


def files_of(top: pathlib.Path, commit: str) -> Files:
    """The files of a commit that a run reads."""
    found = {}
    for entry in _git(top, "ls-tree", "-r", "-z", commit, *READ).split("\0"):
        kind, _, path = entry.partition("\t")
        if path and is_read(path):
            found[path] = kind.split(" ")[2]
    return found


def files_here(top: pathlib.Path) -> Files:
    """The files as they stand here, committed or not, by the digests that git would give them."""
    paths = [str(path.relative_to(top)) for name in READ for path in _below(top / name)]
    paths = sorted(path for path in paths if is_read(path))
    found = {}
    for path in paths:
        content = (top / path).read_bytes()
        found[path] = hashlib.sha1(b"blob %d\0" % len(content) + content).hexdigest()
    return found


def _below(path: pathlib.Path) -> List[pathlib.Path]:
    if path.is_file():
        return [path]
    return [file for file in sorted(path.rglob("*")) if file.is_file() and "out" not in file.parts]


def base_of(top: pathlib.Path, wanted: str) -> Optional[str]:
    """The newest commit here whose files have this digest."""
    for commit in _git(top, "rev-list", f"--max-count={FARTHEST}", "HEAD").split():
        if digest(files_of(top, commit)) == wanted:
            return commit
    return None


# --- What is due ---


def record_here(top: pathlib.Path) -> Tuple[Optional[Record], List[str]]:
    """The line that stands here, and what is wrong with it."""
    path = top / RECORD
    if not path.exists():
        return None, []
    found = LINE.fullmatch(path.read_text(encoding="utf-8", errors="replace"))
    if found is None:
        return None, [f"{RECORD} is not the one line that a release run writes"]
    return Record(int(found[1]), found[2], found[3]), []


def due(top: pathlib.Path, wrongs: Sequence[Wrong], lines: Dict[str, str], toolchain: str) -> Due:
    """What is due here. `lines` has the line of crates.txt of each crate."""
    record, faults = record_here(top)
    if record is None:
        return Due({wrong.name: "no release run is known" for wrong in wrongs}, faults)
    base = base_of(top, record.files)
    if base is None:
        return Due({wrong.name: "the last release run is not known here" for wrong in wrongs},
                   [f"{RECORD} speaks of files that no commit here has: ./check release writes it"])
    before, now = files_of(top, base), files_here(top)
    known = sum(path.endswith(".edit") for path in before)
    if record.refused != known:
        faults.append(f"{RECORD} says that {record.refused} wrong bodies were refused, and its commit {base[:12]} has {known}")
    if record.toolchain != toolchain or before.get("HANDLES") != now.get("HANDLES"):
        reason = "the toolchain changed" if record.toolchain != toolchain else "HANDLES changed"
        return Due({wrong.name: reason for wrong in wrongs}, faults)
    return Due(_changed(top, wrongs, lines, (before, now), _lines_of(_git(top, "show", f"{base}:crates.txt"))), faults)


def _changed(top: pathlib.Path, wrongs: Sequence[Wrong], lines: Dict[str, str], files: Tuple[Files, Files],
             lines_before: Dict[str, str]) -> Dict[str, str]:
    before, now = files
    differing = {path for path in before.keys() | now.keys() if before.get(path) != now.get(path)}
    crates = {path.split("/")[1] for path in differing if path.startswith("crates/")}
    crates |= {crate for crate, line in lines.items() if lines_before.get(crate) != line}
    reasons = {}
    for wrong in wrongs:
        if str(wrong.path.relative_to(top)) in differing:
            reasons[wrong.name] = "its text changed"
        elif wrong.crate in crates:
            reasons[wrong.name] = "its crate changed"
    return reasons


def _lines_of(text: str) -> Dict[str, str]:
    lines = [line for line in text.splitlines() if line.strip() and not line.startswith("#")]
    return {line.split()[0].rstrip(":"): line for line in lines}


def by_turns(wrongs: Sequence[Wrong], reasons: Dict[str, str], files: Files, count: int) -> List[Wrong]:
    """Some of the wrong bodies that are not due, others when the files are others: no line saves a wrong body from every try."""
    seed = digest(files)
    resting = [wrong for wrong in wrongs if wrong.name not in reasons]
    return sorted(resting, key=lambda wrong: hashlib.sha256(f"{seed} {wrong.name}".encode()).digest())[:count]
