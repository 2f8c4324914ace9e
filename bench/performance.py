#!/usr/bin/env python3
"""Prints the tables of docs/PERFORMANCE.md, all of one program: `performance.py [PROGRAM]`, by default the one that was built here, else
the released one. It runs the measuring scripts, one after the other, and prints their tables as Markdown, each below the marker that it has
in the document. It prints first the program, with its commit and day. With `--into docs/PERFORMANCE.md` it puts each table, and that line,
in the place of those that stand there.

The program must be a proved one: `dist/jepmon`, or what `./jepmon build` has made here. For another program say by `--commit NAME` at which
commit it was proved.

Tables, and the script that makes each: loads (bench/loads.py), beside (bench/counted.py beside), outcomes (bench/outcomes.py), orders
(bench/counted.py orders), keys (bench/keys.py), growth (tests/growth.py). Those of counted.py want valgrind, and the columns of other
checkers want `--plain COMMAND` and `--without-ends COMMAND` (counted.py says how these are called). All of it takes some ten minutes of
an idle core; `--share 0.01` tries the script in one, on a hundredth of the events, and can't be put into a document.
"""
import argparse
import datetime
import hashlib
import os
import pathlib
import re
import subprocess
import sys
import time
from typing import Dict, List, NamedTuple, Optional

sys.path.insert(0, str(pathlib.Path(__file__).resolve().parent))
from program import BUILT, RELEASED, TOP, program
from workload import part_of_one, positive_number

MARKER = re.compile(r"<!-- measured: (\w+) -->")
GROWN = re.compile(r"(.*): (?:ok|FAILED), ([0-9.]+) s, ([0-9.]+) us an event, ([0-9]+) MiB, (.*)")


class Fault(Exception):
    """The user's mistake, or the failure of a measurement, in a sentence."""


class Given(NamedTuple):
    program: pathlib.Path
    runs: int
    share: float
    plain: Optional[str]
    without_ends: Optional[str]


def others(given: Given) -> List[str]:
    named = [("--plain", given.plain), ("--without-ends", given.without_ends)]
    return [word for name, command in named if command is not None for word in (name, command)]


def commands(given: Given) -> Dict[str, List[str]]:
    """The words of the script of each table, in the order of the document."""
    share = ["--share", str(given.share)]
    return {
        "loads": ["bench/loads.py", str(given.runs), *share],
        "beside": ["bench/counted.py", "beside", *share, *others(given)],
        "outcomes": ["bench/outcomes.py", str(given.runs), *share],
        "orders": ["bench/counted.py", "orders", *share],
        "keys": ["bench/keys.py", str(max(4_000, int((1 << 20) * given.share)))],
        "growth": ["tests/growth.py", "--size", str(max(100, int(131_072 * given.share)))],
    }


# --- The program and its commit ---

def git(*words: str) -> str:
    ran = subprocess.run(["git", *words], cwd=TOP, stdout=subprocess.PIPE, stderr=subprocess.DEVNULL, universal_newlines=True)
    return ran.stdout.strip()


def last_word_of(file: pathlib.Path, beginning: str = "") -> str:
    """The last word of the last line that begins so, where there is such a file."""
    lines = file.read_text(encoding="utf-8").splitlines() if file.exists() else []
    return next((line.split()[-1] for line in reversed(lines) if line.startswith(beginning) and line.split()), "")


def commit_of(file: pathlib.Path, said: Optional[str]) -> str:
    """The commit at which this program was proved."""
    if said is not None:
        return said
    checksum = hashlib.sha256(file.read_bytes()).hexdigest()
    if checksum == last_word_of(RELEASED.with_name("jepmon.from"), "program "):
        found = git("log", "-1", "--abbrev=8", "--format=%h", "--", "dist/jepmon")
    elif checksum == last_word_of(BUILT.with_name("built-from")):
        if git("status", "--porcelain", "--", "crates", "crates.txt"):
            raise Fault("sources below crates/ were changed since the last commit: commit them, or name the commit by --commit")
        found = git("rev-parse", "--short=8", "HEAD")
    else:
        raise Fault(f"{file} is neither dist/jepmon nor what ./jepmon build has made here, so nobody says that it is proved: "
                    "name the commit at which it was, by --commit")
    return found or "an unknown commit"


def version_of(file: pathlib.Path) -> str:
    try:
        ran = subprocess.run([str(file), "--version"], stdout=subprocess.PIPE, stderr=subprocess.PIPE, stdin=subprocess.DEVNULL,
                             universal_newlines=True, errors="replace")
    except OSError as fault:
        raise Fault(f"{file} can't be run: {fault.strerror}") from None
    found = re.match(r"jepmon (\S+)", ran.stdout)
    if ran.returncode or not found:
        raise Fault(f"{file} is not jepmon: its --version prints {ran.stdout.strip()[:60]!r}")
    return found[1]


def heading(given: Given, version: str, commit: str) -> str:
    day = datetime.date.today()
    part = "" if given.share == 1 else f", on {given.share:g} of the events"
    return f"The proved program {version} of commit {commit}, measured on {day.day} {day:%B %Y} with {os.cpu_count()} cores{part}."


# --- The tables ---

def as_table(lines: List[str]) -> List[str]:
    """The output of tests/growth.py, as a table."""
    rows = ["| Load | Seconds | An event | Peak memory | Ends with |", "|---|---|---|---|---|"]
    found = [match for match in map(GROWN.fullmatch, lines) if match]
    # An event's share says something only where there are many events.
    return rows + [f"| {name} | {seconds} | {f'{each} us' if float(each) < 100 else ''} | {peak} MiB | {said} |"
                   for name, seconds, each, peak, said in (match.groups() for match in found)]


def measured(name: str, words: List[str], file: pathlib.Path) -> List[str]:
    """The lines of a table."""
    began = time.monotonic()
    print(f"{name}: {' '.join(words)}", file=sys.stderr, flush=True)
    ran = subprocess.run([sys.executable, *words], cwd=TOP, env={**os.environ, "JEPMON": str(file)},
                         stdout=subprocess.PIPE, stderr=subprocess.PIPE, universal_newlines=True, errors="replace")
    lines = ran.stdout.splitlines()
    rows = as_table(lines) if name == "growth" else [line for line in lines if line.startswith("|")]
    if ran.returncode or len(rows) < 3:
        said = (ran.stderr or ran.stdout).strip().splitlines()
        raise Fault(f"{words[0]} ended with {ran.returncode}: {said[-1] if said else 'it said nothing'}")
    print(f"{name}: {time.monotonic() - began:.0f} seconds", file=sys.stderr, flush=True)
    return rows


# --- The document ---

def with_tables(text: str, tables: Dict[str, List[str]]) -> str:
    """The document with these instead of the lines below their markers: a table's lines, or one line of another text."""
    kept: List[str] = []
    left = dict(tables)
    lines = text.splitlines()
    at = 0
    while at < len(lines):
        kept.append(lines[at])
        marker = MARKER.fullmatch(lines[at].strip())
        at += 1
        if marker and marker[1] in left:
            kept += left.pop(marker[1])
            begin = at
            while at < len(lines) and lines[at].startswith("|") or at == begin and at < len(lines) and lines[at].strip():
                at += 1
    if left:
        raise Fault(f"the document has no marker for {', '.join(left)}: a line as <!-- measured: {next(iter(left))} -->")
    return "\n".join(kept) + "\n"


def words() -> argparse.Namespace:
    parser = argparse.ArgumentParser(description=__doc__, formatter_class=argparse.RawDescriptionHelpFormatter)
    parser.add_argument("program", nargs="?", type=pathlib.Path, metavar="PROGRAM")
    parser.add_argument("--commit", metavar="NAME", help="the commit at which PROGRAM was proved")
    parser.add_argument("--plain", metavar="COMMAND", help="another checker that computes the same")
    parser.add_argument("--without-ends", metavar="COMMAND", help="another checker that counts no ends")
    parser.add_argument("--runs", type=positive_number, default=3, metavar="N", help="processor times are the least of N runs, 3 unless given")
    parser.add_argument("--share", type=part_of_one, default=1.0, metavar="PART", help="of the events, to try the script")
    parser.add_argument("--only", action="append", metavar="TABLE", help="this table; may be given more than once")
    parser.add_argument("--into", type=pathlib.Path, metavar="FILE", help="put the tables into this document")
    return parser.parse_args()


def run(asked: argparse.Namespace) -> None:
    given = Given((asked.program or program()).resolve(), asked.runs, asked.share, asked.plain, asked.without_ends)
    every = commands(given)
    unknown = [name for name in asked.only or [] if name not in every]
    if unknown:
        raise Fault(f"there is no table {unknown[0]}: they are {', '.join(every)}")
    if not given.program.is_file():
        raise Fault(f"there is no program {given.program}")
    if asked.into is not None and given.share != 1:
        raise Fault("a document has no numbers of a share of the events: leave out --share, or --into")
    text = asked.into.read_text(encoding="utf-8") if asked.into is not None else ""
    version = version_of(given.program)
    tables = {"program": [heading(given, version, commit_of(given.program, asked.commit))]}
    names = asked.only or list(every)
    if asked.into is not None:
        with_tables(text, {**tables, **{name: [] for name in names}})  # before minutes are spent
    else:
        print(f"<!-- measured: program -->\n{tables['program'][0]}", flush=True)
    for name in names:
        tables[name] = measured(name, every[name], given.program)
        if asked.into is None:
            print(f"\n<!-- measured: {name} -->", *tables[name], sep="\n", flush=True)
    if asked.into is not None:
        asked.into.write_text(with_tables(text, tables), encoding="utf-8")


def main() -> int:
    try:
        run(words())
    except (Fault, OSError, UnicodeDecodeError) as fault:
        print(f"performance.py: {fault}", file=sys.stderr)
        return 2
    except KeyboardInterrupt:
        return 130
    return 0


if __name__ == "__main__":
    sys.exit(main())
