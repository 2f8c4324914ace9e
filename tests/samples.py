#!/usr/bin/env python3
"""Judges the samples of tests/samples and compares the verdicts with the tables there. Ends with 'N passed, M failed'.

`smallest` has the smallest inputs for which a translator once had a wrong result. `own_tests` has histories as people's own tests print
them, and `other_tools` has histories as other tools print them. In each folder expected.txt is the table: rows of

    the words of jepmon-judge
      legal, illegal or refused; behind a colon what a line of standard error must have, in any case of letters
      a second line like it is another result that is right

The tables say what is right, so they were never taken from the output of a tool. With words, it runs the rows of these files alone.
"""
import pathlib
import shlex
import sys
from typing import Callable, List, NamedTuple, Tuple

import case_loop

TOP = pathlib.Path(__file__).resolve().parents[1]
sys.path[:0] = [str(TOP), str(TOP / "python")]

from tests.forms_fuzz.judged import Judged, Room, is_fault  # noqa: E402
from tests.forms_fuzz.printed import Printed  # noqa: E402

SAMPLES = TOP / "tests" / "samples"


class Row(NamedTuple):
    folder: pathlib.Path
    words: List[str]
    results: List[Tuple[str, str]]  # verdicts, and what must be said beside each

    @property
    def name(self) -> str:
        return f"{self.folder.name}: {shlex.join(self.words)}"


def rows_of(folder: pathlib.Path) -> List[Row]:
    rows: List[Row] = []
    for line in (folder / "expected.txt").read_text().splitlines():
        if not line.strip() or line.startswith("#"):
            continue
        if not line.startswith(" "):
            rows.append(Row(folder, shlex.split(line), []))
            continue
        word, _, said = (part.strip() for part in line.partition(":"))
        rows[-1].results.append((word, said))
    return rows


def given(row: Row) -> Printed:
    """The words, and the files among them."""
    files = {word: (row.folder / word).read_bytes() for word in row.words if (row.folder / word).is_file()}
    return Printed(files, row.words)


def fits(judged: Judged, word: str, said: str) -> bool:
    return judged.word == word and any(said.lower() in line.lower() for line in judged.lines or [""])


def faults_of(row: Row, room: Room) -> List[str]:
    judged = room.judged(given(row))
    if any(fits(judged, word, said) for word, said in row.results) and not is_fault(judged)[0]:
        return []
    right = " or ".join(word + (f" with {said!r}" if said else "") for word, said in row.results)
    return [f"it was {judged.word}, and right is {right}", *judged.lines[:8]]


def said(faults: List[str]) -> Callable[[], List[str]]:
    return lambda: faults


def main(names: List[str]) -> int:
    with Room() as room:
        rows = [row for folder in sorted(SAMPLES.iterdir()) for row in rows_of(folder) if not names or row.words[0] in names]
        found = [(row, faults_of(row, room)) for row in rows]
    return case_loop.run_cases("samples", [(row.name, said(faults)) for row, faults in found], [])


if __name__ == "__main__":
    sys.exit(main(sys.argv[1:]))
