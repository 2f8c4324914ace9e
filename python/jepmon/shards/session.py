"""A check of one history, step by step: it reads the file into shards, judges the shards, and joins the results.

If the quick reader is in doubt, the exact reader reads the file once. Then the check either refuses the file, or continues with a plain
file of the same events.
"""
from __future__ import annotations

import os
from typing import BinaryIO, Iterable, Iterator, List, NamedTuple, Optional, Sequence, Tuple

from ..forms.account import Account
from ..forms.own import GAP
from ..program import Options
from ..program.report import Verdict
from .batches import batches_of
from .by_key import FIELDS, events_of
from .doubt import Doubt, ShardsError
from .judging import Judged, ShardTask, judge_shard
from .lines import of_code
from .nils import NilsTask, nils_of
from .progress import Progress
from .refusal import first_refusal
from .report import merged, verdict_on, write_report
from .shard import Shard, shards_of
from .sizes import Sizes
from .source import File, file_of
from .tally import Tally
from .team import Team
from .threads import FRONT, fewest_threads


class Refused(Exception):
    """The line of a refusal."""


class Tools(NamedTuple):
    """The parts of a check."""

    program: str
    folder: str  # the folder for temporary files
    team: Team
    sizes: Sizes
    progress: Progress


class KeyEvent(NamedTuple):
    """An event of one key, with its index in the history."""

    place: int
    kind: str
    process: int
    name: str
    part: str


class Session:
    """The check of one history."""

    def __init__(self, file: File, options: Options, tools: Tools, finds_threads: bool = False) -> None:
        self.file, self.options, self.tools = file, options, tools
        self.original = file
        self.tally = Tally()
        self.shards: List[Shard] = []
        self._finds_threads = finds_threads
        self._exact: Optional[Account] = None  # the account of the lines, if the history was read exactly
        self._has_read = self._is_plain = False
        if finds_threads:
            self._find_threads(FRONT)

    def read(self) -> None:
        """Makes the first pass. Raises Refused if this pass finds an event that has to be refused. It does not ask the program."""
        while not self._has_read:
            file, tools = self.file, self.tools
            try:
                sizes = tools.sizes.for_jobs(file.length, tools.team.jobs)
                self.shards, self.tally = shards_of(file.path, file.length, self.options, tools.folder, tools.team, sizes, tools.progress)
                self._has_read = True
            except Doubt as doubt:
                if not self._finds_threads or not self._find_threads(file.length):
                    self.read_exactly(doubt)
        self._test_unchanged()

    def judged(self, options: Options) -> List[Judged]:
        """Makes the second pass. Returns the program's reports on the shards, by these options."""
        while True:
            self.read()
            tasks = [ShardTask(shard.sources, shard.number, shard.name, self.tools.folder, options, self.tools.program, self.tools.sizes)
                     for shard in self.shards]
            try:
                found = self.tools.progress.over("judged", self.tools.team.run(judge_shard, tasks), len(tasks))
                return [judged for _, judged in found]
            except Doubt as doubt:
                self.read_exactly(doubt)

    def nils_after_values(self) -> int:
        """The number of reads of registers that answered nil and began after a value was there."""
        if self.tally.reads_of_nil() <= 0:
            return 0
        tasks = [NilsTask(shard.sources, shard.number) for shard in self.shards]
        return sum(count for _, count in self.tools.team.run(nils_of, tasks))

    def report(self, judged: Sequence[Judged], out: BinaryIO) -> Verdict:
        """Writes the report, and gives the verdict."""
        verdict = verdict_on(judged)
        write_report(merged([result.path for result in judged], self.tools.folder, self.tools.sizes), verdict.line, out)
        return verdict

    def account(self) -> Account:
        """Returns the account of the lines of the history. The history was read before."""
        if self._exact is not None:
            return self._exact
        account = Account()
        account.taken = self.tally.lines_of_events
        account.skip(GAP, self.tally.lines - account.taken)
        account.close(self.tally.lines)
        return account

    def events_of(self, key: int) -> List[KeyEvent]:
        """The events of a key, as far as they are judged."""
        return next((events for _, events in self.events_of_keys([key])), [])

    def events_of_keys(self, wanted: Iterable[int]) -> Iterator[Tuple[int, List[KeyEvent]]]:
        """The events of each of these keys, as far as they are judged, shard by shard."""
        names = {b"%d" % key for key in wanted}
        for shard in self.shards if names else []:
            keys, rests = events_of(shard.sources, shard.number, self.tools.sizes.events)
            for name in names.intersection(keys):
                events = keys[name]
                batch = next(batches_of({name: events}, {name: rests[name]} if name in rests else {}, self.tools.sizes))
                yield int(name), [key_event(*events[at:at + FIELDS]) for at in range(0, batch.keys[0].judged * FIELDS, FIELDS)]

    def read_exactly(self, doubt: Doubt) -> None:
        """Reads the history exactly. Raises Refused, or continues with a file of the same events."""
        if self._is_plain:
            raise ShardsError(f"jepmon and this package differ on this history, which is not judged: {doubt}") from doubt
        self.tools.team.stop()
        self.tools.progress.say("reads event by event")
        path = os.path.join(self.tools.folder, "plain.edn")
        self._exact = Account()
        with open(path, "wb") as plain:
            line = first_refusal(self.file.path, self.options.concurrency, plain, self._exact)
        self.tools.progress.clear()
        self._test_unchanged()
        if line is not None:
            raise Refused(line)
        self.file, self._is_plain, self._has_read = file_of(path), True, False

    def _find_threads(self, length: int) -> bool:
        """Finds the concurrency from the first `length` bytes of the history. Returns whether it differs from before."""
        self._finds_threads = length < self.file.length
        found: Optional[int] = fewest_threads(self.file.path, min(length, self.file.length), self.tools.sizes)
        before = self.options.concurrency
        self.options = self.options._replace(concurrency=before if found is None else found)
        return self.options.concurrency != before

    def _test_unchanged(self) -> None:
        if not self.file.is_unchanged():
            raise ShardsError(f"{self.file.path} has changed while it was read: nothing is judged")


def key_event(part: bytes, code: int, place: int) -> KeyEvent:
    kind, process, name = of_code(code)
    return KeyEvent(place, kind.decode(), process, name.decode(), part.decode())
