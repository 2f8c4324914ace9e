"""Joins the results of shards into the report on the history: a line for each key, in the order of the keys' first events, and the
verdict."""
from __future__ import annotations

import contextlib
import heapq
import os
from typing import IO, BinaryIO, Iterable, Iterator, List, Sequence

from ..program.report import Verdict, verdict_of
from .judging import Judged
from .sizes import Sizes

PLACE = 21  # the bytes of the number before each line of a result


def merged(results: Sequence[str], folder: str, sizes: Sizes) -> Iterator[bytes]:
    """The lines of these files, in the order of the number at the beginning of each line. Removes the files."""
    names, count = list(results), 0
    while len(names) > sizes.merged:  # at most this many files are open at once
        path = os.path.join(folder, f"{count}.merged")
        with open(path, "wb") as file:
            file.writelines(lines_of(names[:sizes.merged]))
        names, count = names[sizes.merged:] + [path], count + 1
    return lines_of(names)


def lines_of(names: Sequence[str]) -> Iterator[bytes]:
    with contextlib.ExitStack() as stack:
        files: List[IO[bytes]] = [stack.enter_context(open(name, "rb")) for name in names]
        yield from heapq.merge(*files)
    for name in names:
        os.unlink(name)


def verdict_on(judged: Iterable[Judged]) -> Verdict:
    """Returns the verdict of all results together."""
    results = list(judged)
    dead, undecided = (min((place for place in places if place is not None), default=None)
                       for places in ([result.dead for result in results], [result.undecided for result in results]))
    return verdict_of(dead, undecided, sum(result.keys for result in results))


def write_report(lines: Iterable[bytes], verdict: str, out: BinaryIO) -> None:
    """Writes the report."""
    out.writelines(line[PLACE:] for line in lines)
    out.write(verdict.encode() + b"\n")
