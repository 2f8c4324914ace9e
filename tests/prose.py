#!/usr/bin/env python3
"""Warns about prose that is hard to read, by the rules of docs/STYLE.md.

    tests/prose.py [PATH ..]          files or folders; without any, all prose of the repository
    tests/prose.py --since COMMIT     only the lines that changed since the commit
    tests/prose.py --counts           how many warnings each file has, worst first

It reads Markdown without code and link targets, comments in .rt and .antt files, and docstrings and messages in Python. A line with
`prose: ok` is never reported. The warnings find patterns and not obscurity: about nine of ten are right. The exit status is 0."""
import argparse
import pathlib
import re
import subprocess
import sys
from collections import Counter
from typing import Dict, List, Optional, Set

from prose_rules.rules import Warned, warnings_of
from prose_rules.texts import sentences_of

TOP = pathlib.Path(__file__).resolve().parent.parent
PLACES = ("README.md", "CHANGELOG.md", "docs", "crates", "python", "examples", "bench", "tests")
LINES_OF_A_PARAGRAPH = 6


def changed_lines(commit: str) -> Dict[pathlib.Path, Set[int]]:
    """The lines of each file that differ from the commit."""
    found: Dict[pathlib.Path, Set[int]] = {}
    path: Optional[pathlib.Path] = None
    told = subprocess.run(["git", "-C", str(TOP), "diff", "-U0", commit], stdout=subprocess.PIPE, check=True, universal_newlines=True).stdout
    for line in told.splitlines():
        if line.startswith("+++ "):
            path = TOP / line[6:] if line.startswith("+++ b/") else None
        match = re.match(r"@@ \S+ \+(\d+)(?:,(\d+))?", line)
        if match and path:
            first, count = int(match[1]), int(match[2] or 1)
            found.setdefault(path, set()).update(range(first, first + count))
    return found


def files_below(paths: List[pathlib.Path]) -> List[pathlib.Path]:
    found: List[pathlib.Path] = []
    for path in paths:
        below = (one for one in path.rglob("*") if one.suffix in (".md", ".rt", ".antt", ".py") and "out" not in one.parts)
        found += sorted(below) if path.is_dir() else [path]
    return found


def shown(path: pathlib.Path) -> str:
    path = path.resolve()
    return str(path.relative_to(TOP)) if TOP in path.parents else str(path)


def main() -> int:
    parser = argparse.ArgumentParser(description=__doc__, formatter_class=argparse.RawDescriptionHelpFormatter)
    parser.add_argument("paths", nargs="*", type=pathlib.Path)
    parser.add_argument("--since", metavar="COMMIT")
    parser.add_argument("--counts", action="store_true")
    options = parser.parse_args()
    files = files_below([path.resolve() for path in options.paths] or [TOP / name for name in PLACES])
    changed = changed_lines(options.since) if options.since else None
    found: List[Warned] = []
    words: "Counter[pathlib.Path]" = Counter()
    for path in files if changed is None else [path for path in files if path in changed]:
        for one in sentences_of(path):
            words[path] += len(one.text.split())
            lines = set(range(one.line, one.line + LINES_OF_A_PARAGRAPH))
            if changed is None or changed[path] & lines:
                found += warnings_of(one)
    if options.counts:
        for path, count in Counter(one.path for one in found).most_common():
            print(f"{count:5} {1000 * count / max(words[path], 1):5.1f} in 1,000 words  {shown(path)}")
    else:
        for one in found:
            print(f"{shown(one.path)}:{one.line}: {one.found!r}: {one.advice}")
    total = sum(words.values())
    print(f"prose: {len(found)} warnings in {total:,} words" + (f", {1000 * len(found) / total:.1f} in 1,000" if total else ""))
    return 0


if __name__ == "__main__":
    sys.exit(main())
