"""jepmon-judge on a file beside jepmon-judge --jobs 1 on the same file: one form means one thing, however it is judged."""
from __future__ import annotations

from typing import NamedTuple

from .cases import Case, Examiner
from .judged import Judged

JOBS = ("--no-cause", "--jobs", "1")


class Pair(NamedTuple):
    case: Case
    plain: Judged
    shards: Judged

    @property
    def word(self) -> str:
        """The comparison: "same", "refused by one", "another verdict", or "another report" if the reports differ in keys or faults."""
        words = {self.plain.word, self.shards.word}
        if len(words) == 1:
            return "same" if self.plain.output == self.shards.output else "another report"
        return "refused by one" if "refused" in words else "another verdict"

    def said(self) -> str:
        lines = [line for judged in (self.plain, self.shards) if judged.word == "refused" for line in judged.lines[-1:]]
        ways = " ".join(f"{name}={self.case.ways[name]}" for name in self.case.variations())
        return f"{self.plain.word} and by shards {self.shards.word}, {self.case.form}: {ways} {' '.join(lines)}"


def compared(examiner: Examiner, case: Case, plain: Judged) -> Pair:
    return Pair(case, plain, examiner.room.judged(case.printed(), *JOBS))
