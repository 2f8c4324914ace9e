"""Lets the prover refuse the wrong bodies, wrong/CRATE/NAME.edit, over the libraries that the gate has built.

    wrong_bodies.py              those that are due since the last release, and two others by turns: what the gate does
    wrong_bodies.py NAME..       those of a crate, CRATE, or one of them, CRATE/NAME
    wrong_bodies.py --plan       which are due, and why; tries none
    wrong_bodies.py --release    all; writes dist/jepmon.refused if each is refused for its clause

This machine keeps the refused ones, in ~/.cache/jepmon/refused, by the digest of all that its try read. A later run does not try the same
again, unless --anew is given. So a run that was cut off goes on where it stopped. The last line is 'N passed, M failed'; the line before it
says how many were due, tried, kept, and stand by the last release.
"""
from __future__ import annotations

import argparse
import concurrent.futures
import hashlib
import os
import pathlib
import re
import tempfile
import time
from typing import Dict, List, NamedTuple, Optional, Sequence

from .edit import Wrong, strays, wrong_bodies
from .prover import CLAUSE, LIMITED, MEANING, REFUSED, Crates, Outcome, Prover
from .release import RECORD, Record, by_turns, digest, due, files_here

TOP = pathlib.Path(os.environ.get("JEPMON_TOP") or pathlib.Path(__file__).resolve().parent.parent.parent)
MOST_OF_A_CHECK = 2_600_000_000  # bytes: a check of some functions, or of a crate, has taken at most 1.8 GB
BY_TURNS = 2
SHOWN = 200  # characters of what the prover says


class Tries(NamedTuple):
    """The wrong bodies that a run tries, and what it found before it tried one."""

    wrongs: List[Wrong]
    due: int
    standing: int  # by the last release
    faults: List[str]


def main(words: Optional[Sequence[str]] = None) -> int:
    parser = argparse.ArgumentParser(prog="tests/wrong_bodies.py", description=__doc__, formatter_class=argparse.RawDescriptionHelpFormatter)
    parser.add_argument("names", nargs="*", metavar="NAME")
    parser.add_argument("--plan", action="store_true")
    parser.add_argument("--release", action="store_true")
    parser.add_argument("--anew", action="store_true", help="try also what an earlier run on this machine has kept")
    given = parser.parse_args(words)
    crates = Crates(TOP)
    prover = Prover(crates)
    tries = chosen(crates, prover, given.names, given.release)
    if given.plan:
        print(f"{len(tries.wrongs)} are tried, {tries.due} of them are due; {tries.standing} stand by the last release")
        return 0
    begin = time.monotonic()
    outcomes = all_tried(prover, tries.wrongs, given.anew)
    failed = tries.faults + [f"{it.wrong.name}: {MEANING[it.kind]}: {it.told[:SHOWN]}" for it in outcomes if it.kind not in REFUSED]
    if given.release:
        failed += not_released(outcomes)
    for line in failed:
        print(f"FAILED {line}")
    if given.release and not failed:
        write_record(prover, len(outcomes))
    refused = sum(it.kind in REFUSED for it in outcomes)
    kept = sum(it.is_kept for it in outcomes)
    print(f"wrong bodies: {tries.due} due, {len(outcomes) - kept} tried, {kept} kept, {tries.standing} stand by the last release; "
          f"{time.monotonic() - begin:.0f} seconds, {sum(it.seconds for it in outcomes) / 60:.1f} processor minutes")
    print(f"{refused} passed, {len(failed)} failed")
    return 1 if failed else 0


def chosen(crates: Crates, prover: Prover, names: Sequence[str], is_release: bool) -> Tries:
    """What is tried. Prints the reason of each."""
    wrongs = [wrong for wrong in wrong_bodies(TOP) if wrong.crate in crates.lines]
    faults = [f"{path}: a wrong body is wrong/CRATE/NAME.edit, of a crate of crates.txt" for path in strays(TOP, list(crates.lines))]
    if names:
        unknown = [name for name in names if not any(name in (wrong.crate, wrong.name) for wrong in wrongs)]
        faults += [f"there is no wrong body {name}" for name in unknown]
        some = [wrong for wrong in wrongs if wrong.crate in names or wrong.name in names]
        return Tries(some, len(some), 0, faults)
    if is_release:
        return Tries(wrongs, len(wrongs), 0, faults)
    found = due(TOP, wrongs, crates.lines, prover.version)
    some = [wrong for wrong in wrongs if wrong.name in found.reasons]
    turns = by_turns(wrongs, found.reasons, files_here(TOP), BY_TURNS)
    for wrong in some + turns:
        print(f"{wrong.name}: {found.reasons.get(wrong.name, 'by turns')}")
    return Tries(some + turns, len(some), len(wrongs) - len(some), faults + found.faults)


# --- Tries side by side ---


def all_tried(prover: Prover, wrongs: Sequence[Wrong], anew: bool) -> List[Outcome]:
    """Tries wrong bodies, those of a crate one after the other and crates side by side, the crates with the most first."""
    by_crate: Dict[str, List[Wrong]] = {}
    for wrong in wrongs:
        by_crate.setdefault(wrong.crate, []).append(wrong)
    groups = sorted(by_crate.values(), key=len, reverse=True)
    with concurrent.futures.ThreadPoolExecutor(lanes()) as pool:
        return [outcome for outcomes in pool.map(lambda some: crate_tried(prover, some, anew), groups) for outcome in outcomes]


def crate_tried(prover: Prover, wrongs: Sequence[Wrong], anew: bool) -> List[Outcome]:
    """Tries wrong bodies of one crate, each over what the checks before it have proved, in a folder of this run alone."""
    outcomes = []
    with tempfile.TemporaryDirectory(prefix="wrong-kept-") as kept:
        for wrong in wrongs:
            place = kept_place(prover, wrong)
            if place.exists() and not anew:
                outcome = Outcome(wrong, CLAUSE, place.read_text(encoding="utf-8"), 0.0, is_kept=True)
            else:
                outcome = prover.tried(wrong, kept)
            if outcome.kind == CLAUSE and not outcome.is_kept:
                place.parent.mkdir(parents=True, exist_ok=True)
                place.write_text(outcome.told, encoding="utf-8")
            outcomes.append(outcome)
            how = "kept" if outcome.is_kept else f"{outcome.seconds:.0f} s"
            print(f"{wrong.name}: {MEANING[outcome.kind]} ({how}): {outcome.told[:SHOWN]}", flush=True)
    return outcomes


def kept_place(prover: Prover, wrong: Wrong) -> pathlib.Path:
    """The file that keeps the refusal of a wrong body on this machine, by the digest of all that its try reads."""
    made = hashlib.sha256(f"{prover.version} {wrong.name} ".encode() + wrong.path.read_bytes() + (TOP / "HANDLES").read_bytes())
    for crate in [*prover.crates.below(wrong.crate), wrong.crate]:
        made.update(prover.crates.lines[crate].encode())
        for path in prover.crates.files(crate):
            made.update(f"{path.relative_to(TOP)} ".encode() + hashlib.sha256(path.read_bytes()).digest())
    cache = os.environ.get("XDG_CACHE_HOME") or pathlib.Path.home() / ".cache"
    return pathlib.Path(cache, "jepmon", "refused", made.hexdigest())


def lanes() -> int:
    """How many checks run side by side: as many as there are processors, and as the memory holds."""
    free = re.search(r"MemAvailable:\s+(\d+)", pathlib.Path("/proc/meminfo").read_text(encoding="ascii"))
    fitting = int(int(free[1]) * 1024 // MOST_OF_A_CHECK) if free else 1
    return int(os.environ.get("RT_JOBS") or max(1, min(fitting, len(os.sched_getaffinity(0)))))


# --- The line of a release ---


def not_released(outcomes: Sequence[Outcome]) -> List[str]:
    """Why there is no release: a wrong body that a limit of the prover stopped was not refused for its clause."""
    return [f"{it.wrong.name}: no release: {MEANING[it.kind]}: {it.told[:SHOWN]}" for it in outcomes if it.kind == LIMITED]


def write_record(prover: Prover, refused: int) -> None:
    record = Record(refused, digest(files_here(TOP)), prover.version)
    (TOP / RECORD).write_text(record.line, encoding="utf-8")
    print(f"{RECORD}: {record.line}", end="")
