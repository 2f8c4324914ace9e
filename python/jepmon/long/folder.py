"""The folder of a run of a test without an end: a folder for each part, and files about all parts.

    runs/20261127T193005.123/part-0001/   like the folder of a run of Monitor: its history, judge-again, the verdict, its objects' names
                             part-0002/   (names.txt), and the cause and the page if it is illegal or unknown
                             parts.txt    a line for each part that is closed
                             judge-again  a script that judges each part again, and joins the verdicts
                             verdict.txt  the verdict on all parts, and the operations that were not judged
                             counts.txt   the number of operations by outcome
                             run.html     rates, latencies and faults over time, and all keys
    runs/latest                           a link to the newest folder
"""
from __future__ import annotations

import collections
import datetime
import os
import pathlib
import shutil
import sys
from typing import TYPE_CHECKING, Deque, List, Optional, Union

from ..live.conclusion import count_lines
from ..live.run_folder import AGAIN, COUNTS, VERDICT, RunFolder, new_folder, write_whole
from ..live.sender import Telling
from ..live.verdicts import NotLegal
from ..program import Options
from ..rates.run import leave

if TYPE_CHECKING:
    from .part import Part
    from .tally import Tally

PARTS = "parts.txt"
SCRIPT = """#!/bin/sh
# Judges each part, beside this file, again by the proved program, and joins the verdicts. The run began at {begun}
cd "$(dirname "$0")" || exit 3
status=0 verdict=legal
told=$(head -n 1 verdict.txt)
for part in part-*; do
  [ -x "$part/judge-again" ] || continue
  said=$("./$part/judge-again" | tail -n 1)
  echo "$part: ${{said:=no verdict}}"
  case $said in
    legal) now=0 ;;
    illegal*) now=1 ;;
    unknown*) now=2 ;;
    *) now=3 ;;
  esac
  # illegal, else what was not judged, else unknown; of several parts that of the one that the run has named, else of the first
  case $status$now in
    01 | 02 | 03 | 21 | 23 | 31) status=$now verdict="$said of $part" ;;
    11 | 22 | 33) [ "$said of $part" != "$told" ] || verdict=$told ;;
  esac
done
# what no history shows: messages that are lost, a server that has crashed, and that there is no verdict
case $status/$told in
  1/*) ;;
  */lost* | */crashed*) status=1 verdict=$told ;;
  */"no verdict"*) status=3 verdict=$told ;;
esac
grep -e removed -e 'not written' parts.txt >&2
echo "$verdict"
exit "$status"
"""


class LongFolder:
    """The folder is made with the first part. It raises an OSError if it can't be made. Later, if a file can't be written, standard error
    says so once, and the test continues without the folder."""

    def __init__(self, out: Union[str, "os.PathLike[str]"], begun: datetime.datetime, keep: Optional[int], page: bool = True) -> None:
        self.path: Optional[pathlib.Path] = None
        self.lost: Optional[str] = None  # the first file that could not be written, and the reason
        self._out, self._begun, self._keep, self._page = out, begun, keep, page
        self._shown = pathlib.Path()  # the path in messages
        self._open: List[RunFolder] = []  # the folders of parts that are not closed
        self._legal: Deque[pathlib.Path] = collections.deque()  # parts that are kept so far

    def part(self, name: str, options: Options, program: str) -> Optional[RunFolder]:
        """The folder of a new part; none if it can't be written."""
        if self.path is None:
            with new_folder(self._out, self._begun) as path:
                write_whole(path / AGAIN, SCRIPT.format(begun=self._begun.isoformat()), executable=True)
                (path / PARTS).touch()
                made = self._made(path / name, options, program)
            self.path, self._shown = path.absolute(), path
            return made
        self.lost = self.lost or next((folder.lost for folder in self._open if folder.lost is not None), None)
        if self.lost is not None:
            return None
        try:
            return self._made(self._here(name), options, program)
        except OSError as fault:
            self._lose(name, fault)
            return None

    def _here(self, name: str) -> pathlib.Path:
        """Returns the path for messages. It is absolute if the test has changed its working folder."""
        assert self.path is not None
        return self._shown / name if self._shown.absolute() == self.path else self.path / name

    def _made(self, path: pathlib.Path, options: Options, program: str) -> RunFolder:
        path.mkdir()
        try:
            self._open.append(RunFolder(path, self._begun, options, program, is_part=True))
        except OSError:
            shutil.rmtree(path, ignore_errors=True)
            raise
        return self._open[-1]

    def closed(self, part: Part, telling: Telling) -> None:
        """Records the result of a part. If only some legal parts are kept, removes the oldest."""
        said = f"{part.name}: {telling.length} events, {len(part.objects)} objects: {telling.verdict or 'no verdict'}"
        lost = "its folder" if part.folder is None else part.folder.lost
        self.lost = self.lost or lost
        self._note(said if lost is None else f"{said}; not written whole: {lost}")
        if part.folder is not None:
            self._open.remove(part.folder)
        if part.folder is not None and lost is None and telling.verdict == "legal" and self._keep is not None:
            self._legal.append(part.folder.path)
            while len(self._legal) > self._keep:
                removed = self._legal.popleft()
                shutil.rmtree(removed, ignore_errors=True)
                self._note(f"{removed.name}: removed, since it is legal")

    def _note(self, line: str) -> None:
        if self.path is not None:
            try:
                with open(self.path / PARTS, "a", encoding="utf-8") as file:
                    file.write(line + "\n")
            except OSError as fault:
                self._lose(PARTS, fault)

    def put_verdict(self, verdict: str) -> None:
        self._put(VERDICT, verdict + "\n")

    def conclude(self, verdict: str, tally: Tally, ended_by: Optional[BaseException]) -> None:
        """Writes the results of all parts."""
        lines = [f"events: {tally.events} in {tally.parts} parts, on {tally.objects} objects", *count_lines(tally.counts)]
        lines += verdict.split("\n")[1:] + [f"dropped: {said}" for said in tally.first_dropped]
        if ended_by is not None and not isinstance(ended_by, NotLegal):
            lines.append(f"the test was ended by {ended_by!r}")
        self._put(COUNTS, "\n".join(lines + ([self.lost] if self.lost is not None else [])) + "\n")
        self.put_verdict(verdict)
        if self._page and self.path is not None:
            leave(self.path, self.lost is not None)

    def _put(self, name: str, text: str) -> None:
        if self.path is not None:
            try:
                write_whole(self.path / name, text)
            except OSError as fault:
                self._lose(name, fault)

    def _lose(self, name: str, fault: OSError) -> None:
        if self.lost is None:
            self.lost = f"{self._shown}/{name} can't be written: {fault.strerror}"
            print(f"jepmon: {self.lost}; the test goes on without", file=sys.stderr)
