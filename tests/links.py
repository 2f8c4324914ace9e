#!/usr/bin/env python3
"""Checks the documents without running anything. Each link to a file or a heading of this repository leads there. docs/DECISIONS.md is as
its first lines say. Its index has each heading once and in order. It has at most 50 entries. An entry has at most 180 words. Link targets
and tables after the entry do not count. An entry says what was measured, tried or shown, why not another way, and what would change it.

    tests/links.py             prints what is wrong, and 'N passed, M failed': one for each document, one for the decisions, one for the layers
    tests/links.py --index     writes the index of docs/DECISIONS.md from its headings

The drawing of the layers in docs/ARCHITECTURE.md is that of crates.txt."""
import pathlib
import re
import subprocess
import sys
from typing import Dict, Iterator, List, NamedTuple, Set

import layers

TOP = pathlib.Path(__file__).resolve().parent.parent
DECISIONS = TOP / "docs" / "DECISIONS.md"
LINK = re.compile(r"\]\(([^()\s]+)\)")
INDEX = re.compile(r"(?:^- .*\n)+", re.M)
MOST_WORDS = 180
MOST_ENTRIES = 50
WANTED = ((r"\*\*(Measured|Tried|Shown)\*\*", "what was measured, tried or shown"), (r"\*\*(Not|Nor|not)\*\*", "why not another way"),
          (r"\*\*[Ww]ould\s+change\*\*", "what would change it"))


def outside_of_fences(text: str) -> Iterator[str]:
    fenced = False
    for line in text.splitlines():
        if line.lstrip().startswith("```"):
            fenced = not fenced
        elif not fenced:
            yield line


def anchor(heading: str) -> str:
    """The name that a heading has in a link, as it is made from its words."""
    shown = re.sub(r"\[([^\]]*)\]\([^)]*\)", r"\1", heading)
    return re.sub(r"[^\w\- ]", "", shown.lower()).replace(" ", "-")


def anchors_of(file: pathlib.Path, known: Dict[pathlib.Path, Set[str]] = {}) -> Set[str]:
    if file not in known:
        names: Set[str] = set()
        for line in outside_of_fences(file.read_text(encoding="utf-8")):
            heading = re.match(r"#+ (.*)", line)
            if heading:
                name, number = anchor(heading[1].strip()), 1
                while name in names:
                    name, number = f"{anchor(heading[1].strip())}-{number}", number + 1
                names.add(name)
        known[file] = names
    return known[file]


def broken(file: pathlib.Path) -> List[str]:
    """The links of a document that lead nowhere."""
    found = []
    for line in outside_of_fences(file.read_text(encoding="utf-8")):
        for target in LINK.findall(re.sub(r"`[^`]*`", "", line)):
            if re.match(r"[a-z]+:", target):
                continue
            path, _, name = target.partition("#")
            other = (file.parent / path).resolve() if path else file
            if not other.exists():
                found.append(f"there is no {target}")
            elif name and (other.suffix != ".md" or name not in anchors_of(other)):
                found.append(f"there is no heading {target}")
    return found


class Heading(NamedTuple):
    is_section: bool
    name: str
    lines: List[str]  # up to the first table


def headings() -> List[Heading]:
    """The headings of the decisions."""
    found: List[Heading] = []
    in_table = False
    for line in DECISIONS.read_text(encoding="utf-8").splitlines():
        heading = re.match(r"(###?) (.*)", line)
        if heading:
            found.append(Heading(heading[1] == "##", heading[2], []))
            in_table = False
        elif found:
            in_table = in_table or line.startswith("|")
            if not in_table:
                found[-1].lines.append(line)
    return found


def index_of(every: List[Heading]) -> str:
    """The index that these headings make."""
    return "".join(f"- **[{one.name}](#{anchor(one.name)})**\n" if one.is_section else f"- [{one.name}](#{anchor(one.name)})\n" for one in every)


def write_index() -> None:
    text = DECISIONS.read_text(encoding="utf-8")
    before, mark, behind = text.partition("\n## ")
    before = INDEX.sub("", before).rstrip("\n") + "\n\n" + index_of(headings())
    DECISIONS.write_text(before + mark + behind, encoding="utf-8")


def of_decisions() -> List[str]:
    """The faults of the decisions."""
    faults = []
    every = headings()
    index = INDEX.search(DECISIONS.read_text(encoding="utf-8").split("\n## ", 1)[0])
    if (index[0] if index else "") != index_of(every):
        faults.append("the index is not that of the headings: run python3 tests/links.py --index")
    for is_section, name, lines in every:
        shown = LINK.sub("]", "\n".join(lines))
        words = len(shown.split())
        if words > MOST_WORDS:
            faults.append(f"'{name}' has {words} words, more than {MOST_WORDS}")
        for wanted, fact in () if is_section else WANTED:
            if not re.search(wanted, shown):
                faults.append(f"'{name}' does not say {fact}")
    entries = sum(not one.is_section for one in every)
    if entries > MOST_ENTRIES:
        faults.append(f"{entries} entries, more than {MOST_ENTRIES}")
    return faults


def main() -> int:
    if sys.argv[1:] == ["--index"]:
        write_index()
        return 0
    listed = subprocess.run(["git", "ls-files", "-z", "*.md"], cwd=TOP, stdout=subprocess.PIPE, stderr=subprocess.DEVNULL).stdout.decode()
    files = [TOP / name for name in listed.split("\0") if name] or [TOP / "README.md", TOP / "CHANGELOG.md", *sorted((TOP / "docs").glob("*.md"))]
    results = [(str(file.relative_to(TOP)), broken(file)) for file in files if file.exists()]
    results.append(("docs/DECISIONS.md", of_decisions()))
    results.append(("docs/ARCHITECTURE.md", layers.faults()))
    for name, faults in results:
        for fault in faults:
            print(f"{name}: {fault}")
    failed = sum(bool(faults) for _, faults in results)
    print(f"{len(results) - failed} passed, {failed} failed")
    return 1 if failed else 0


if __name__ == "__main__":
    sys.exit(main())
