#!/usr/bin/env python3
"""Prints random histories of known verdict in every form that jepmon-judge takes, with variations as tests in the field have them, and
compares the verdicts. A wrong verdict is SILENT if no line warns of it, and SETTLED if a line names an option and the verdict is right with
it. It is CLOCKS if it is right by times of clocks that differ, and a line says so; else NOTED. The smallest case of each class is shown. A
refusal is not a verdict. Some cases are judged by --jobs too, which must say the same. Ends with 'N passed, M failed'.

usage: tests/fuzz_forms.py [--count N] [--seconds S] [--seed S] [--form FORM] [--jobs-of N] [--out DIR] [--shares]     JEPMON names the program

With no words it runs what ./check runs: 2,000 histories of a fixed seed.
"""
import argparse
import collections
import math
import pathlib
import re
import sys
import time
from typing import Counter, Dict, List

TOP = pathlib.Path(__file__).resolve().parents[1]
sys.path[:0] = [str(TOP), str(TOP / "python")]

from tests.forms_fuzz.cases import Case, Examiner, Wrong, cases  # noqa: E402
from tests.forms_fuzz.judged import Judged, Room, is_fault  # noqa: E402
from tests.forms_fuzz.printed import PRINTERS  # noqa: E402
from tests.forms_fuzz.shards import Pair, compared  # noqa: E402

COUNT, SEED = 2_000, 63
NOTED_OF = 1_000  # histories among which one wrong verdict may have a warning
JOBS_OF = 10  # of so many cases one is judged by --jobs too
SHOWN, SHOWN_PAIRS = 40, 8  # classes, and pairs of verdicts


class Tally:
    """The results of the cases."""

    def __init__(self) -> None:
        self.by_form: "Counter[str]" = collections.Counter()
        self.by_way: Dict[str, "Counter[str]"] = collections.defaultdict(collections.Counter)
        self.classes: Dict[str, List[Wrong]] = collections.defaultdict(list)
        self.faults: Dict[str, List[str]] = collections.defaultdict(list)  # of the tool itself, by their lines
        self.pairs: Dict[str, List[Pair]] = collections.defaultdict(list)  # judged plainly and by shards, by what came of both

    def take(self, case: Case, judged: Judged, is_wrong: bool) -> None:
        fault, line = is_fault(judged)
        if fault:
            self.faults[line].append(str(case.ways))
        word = "wrong" if is_wrong else "judged" if judged.word == case.right else judged.word
        self.by_form[f"{case.form} {word}"] += 1
        for name in case.variations():
            self.by_way[f"{case.form} {name}={case.ways[name]}"][word] += 1

    def count(self, word: str) -> int:
        """How many wrong verdicts are SILENT, NOTED, SETTLED or CLOCKS."""
        return sum(wrong.word == word for found in self.classes.values() for wrong in found)


def main() -> int:
    given = words()
    began, tally, end = time.process_time(), Tally(), time.monotonic() + given.seconds
    with Room() as room:
        examiner = Examiner(room)
        for place, case in enumerate(cases(given.seed, given.count, given.form)):
            if time.monotonic() > end:
                given.count = place
                break
            judged = examiner.judged(case)
            if place % given.jobs_of == 0:
                pair = compared(examiner, case, judged)
                tally.pairs[pair.word].append(pair)
            wrong = examiner.wrong(case, judged)
            tally.take(case, judged, wrong is not None)
            if wrong is not None:
                smallest = examiner.smallest(wrong)
                tally.classes[smallest.signature()].append(smallest)
    shown(tally, given)
    silent, noted, settled, clocks = (tally.count(word) for word in ("SILENT", "NOTED", "SETTLED", "CLOCKS"))
    failed = (silent + sum(map(len, tally.faults.values())) + (noted if noted * NOTED_OF > given.count else 0)
              + len(tally.pairs["another verdict"]))
    print(f"seed {given.seed}, {given.count} histories: {silent} wrong verdicts in silence, {noted} with a warning, "
          f"{settled} that the option named settles, {clocks} by clocks that differ, {time.process_time() - began:.0f} seconds of Python")
    print(f"{given.count - failed} passed, {failed} failed")
    return 1 if failed else 0


def words() -> argparse.Namespace:
    parser = argparse.ArgumentParser(description=__doc__, formatter_class=argparse.RawDescriptionHelpFormatter)
    parser.add_argument("--count", type=int, default=COUNT)
    parser.add_argument("--seconds", type=float, default=math.inf, help="end after this time, with what was judged until then")
    parser.add_argument("--seed", type=int, default=SEED)
    parser.add_argument("--form", choices=tuple(PRINTERS))
    parser.add_argument("--jobs-of", type=int, default=JOBS_OF, metavar="N", help="judge one case of N by --jobs too")
    parser.add_argument("--out", type=pathlib.Path, help="a folder for the smallest case of each class")
    parser.add_argument("--shares", action="store_true", help="the results of each variation")
    return parser.parse_args()


def shown(tally: Tally, given: argparse.Namespace) -> None:
    for line, ways in tally.faults.items():
        print(f"{len(ways):6} FAULT {line}, as of {min(ways, key=len)}")
    classes = sorted(tally.classes.items(), key=lambda found: (not found[0].startswith("SILENT"), -len(found[1])))
    for signature, found in classes[:SHOWN]:
        smallest = min(found, key=lambda wrong: len(wrong.case.ops))
        print(f"{len(found):6} {signature}")
        for line in smallest.warnings[:2]:
            print(f"         {line[:200]}")
        if given.out is not None:
            kept(given.out, signature, smallest)
    for word, pairs in sorted(tally.pairs.items()):
        print(f"{len(pairs):6} judged plainly and by shards: {word}")
        for pair in pairs[:SHOWN_PAIRS] if word in ("another verdict", "refused by one") else ():
            print(f"         {pair.said()[:200]}")
    for what, number in sorted(tally.by_form.items()):
        print(f"{number:6} {what}")
    for way, counts in sorted(tally.by_way.items()) if given.shares else ():
        print(f"       {way}: " + ", ".join(f"{number} {word}" for word, number in sorted(counts.items())))


def kept(folder: pathlib.Path, signature: str, wrong: Wrong) -> None:
    """Writes the files of a case, and what was said of them."""
    room = folder / re.sub(r"[^A-Za-z0-9=_>-]+", "_", signature)[:120]
    room.mkdir(parents=True, exist_ok=True)
    printed = wrong.case.printed()
    for name, raw in printed.files.items():
        (room / name).write_bytes(raw)
    (room / "said.txt").write_text("\n".join([f"right: {wrong.case.right}", " ".join(printed.words), *wrong.judged.lines, wrong.judged.output]))


if __name__ == "__main__":
    sys.exit(main())
