"""A history as shards in a folder: they are written, judged one by one, and joined.

A join judges nothing. It takes the reports beside the shards. Each report names its shard, and there is a verdict only if each shard has a
report.
"""
from __future__ import annotations

import contextlib
import os
import shutil
from typing import BinaryIO, Callable, Dict, Iterator, List, NamedTuple, Sequence

from ..program import Options
from ..program.report import Verdict
from .batches import batches_of
from .by_key import events_of
from .doubt import Doubt, ShardsError
from .folder import MANIFEST, MAP, OUT, TEXT, Manifest, Written, read_manifest, read_map, read_report, read_shard, write_manifest
from .folder import checksum_of, write_report, write_shard
from .judging import REFUSED, Judged, checked, statuses_of, write_result
from .models import by_model
from .refusal import first_refusal
from .report import merged, verdict_on
from .report import write_report as write_whole
from .routing import Source
from .session import Refused, Session
from .sizes import Sizes

Engine = Callable[[str, Sequence[Written], Options], Iterator[Judged]]

LISTED = 12  # at most this many missing shards are named
MARK = "splitting"  # a folder has this file as long as its shards are not all written


class SplitTask(NamedTuple):
    """A shard to write into a folder, as one file or several."""

    sources: List[Source]
    shard: int
    name: str
    folder: str
    options: Options
    sizes: Sizes


def write_shards(task: SplitTask) -> List[Written]:
    """Does the second pass over a shard that is judged elsewhere."""
    keys, rests = events_of(task.sources, task.shard, task.sizes.events)
    written: List[Written] = []
    for model, of_model in by_model(keys, task.options.model):
        for batch in batches_of(of_model, rests, task.sizes):
            options = task.options._replace(model=model)
            written.append(write_shard(task.folder, f"{task.name}-{len(written)}", batch, options, task.sizes.threads))
    return written


def split(session: Session, options: Options, folder: str) -> List[Written]:
    """Writes the shards of a history into an existing folder."""
    session.read()
    tools = session.tools
    tasks = [SplitTask(shard.sources, shard.number, f"shard-{shard.name}", folder, options, tools.sizes) for shard in session.shards]
    found = tools.progress.over("written", tools.team.run(write_shards, tasks), len(tasks))
    return sorted(written for _, shards in found for written in shards)


@contextlib.contextmanager
def new_folder(folder: str) -> Iterator[None]:
    """A folder that is new, empty, or left by an interrupted split. After an error it is empty again."""
    made = not os.path.isdir(folder)
    try:
        os.makedirs(folder, exist_ok=True)
        names = os.listdir(folder)
        if names and MARK not in names:
            has = "has shards already: join them, or name a new one" if MANIFEST in names else "has other files: name a new one"
            raise ShardsError(f"{folder}: this folder {has}")
        clear(folder)
        with open(os.path.join(folder, MARK), "w"):
            pass
        try:
            yield
            os.unlink(os.path.join(folder, MARK))
        except BaseException:
            clear(folder)
            if made:
                os.rmdir(folder)
            raise
    except OSError as fault:
        raise ShardsError(f"{fault.filename or folder}: {fault.strerror}") from fault


def clear(folder: str) -> None:
    """Removes what a split has written."""
    for name in os.listdir(folder):
        if name in (MANIFEST, MARK) or name.endswith((TEXT, MAP, OUT)):
            os.unlink(os.path.join(folder, name))


def judged_elsewhere(session: Session, options: Options, engine: Engine) -> List[Judged]:
    """Has an engine judge all shards. The engine gets a folder with the shards."""
    while True:
        folder = os.path.join(session.tools.folder, "shards")
        shutil.rmtree(folder, ignore_errors=True)
        os.mkdir(folder)
        shards = split(session, options, folder)
        try:
            return [judged for _, judged in session.tools.progress.over("judged", enumerate(engine(folder, shards, options)), len(shards))]
        except Doubt as doubt:
            session.read_exactly(doubt)


def finish(session: Session, options: Options, folder: str, shards: List[Written]) -> None:
    """Writes shards.json: from now on the folder can be joined."""
    file = session.original
    write_manifest(folder, Manifest(file._replace(path=os.path.abspath(file.path)), options, shards))


# --- Judging ---


def judge(path: str, program: str) -> bool:
    """Has the program judge a shard, and writes the report beside it. Returns False if the report already exists."""
    text, options = read_shard(path)
    checksum, out = checksum_of(text), path[:-len(TEXT)] + OUT if path.endswith(TEXT) else path + OUT
    if read_report(out, checksum) is not None:
        return False
    report = tested_report(checked(text, options, program))
    write_report(out, checksum, report)
    return True


def tested_report(report: str) -> str:
    """Returns the report if the program has judged the shard, or has refused an event of it. Otherwise raises a ShardsError."""
    last = report.splitlines()[-1] if report else "nothing"
    if last == "nothing" or last.startswith("refused ") and not REFUSED.fullmatch(last):
        raise ShardsError(f"jepmon can't judge a shard: it says {last}")
    return report


# --- Joining ---


def join(folder: str, scratch: str, out: BinaryIO, sizes: Sizes = Sizes()) -> Verdict:
    """Writes the report on the history whose shards are in a folder, and returns the verdict. Raises Refused if an event is refused."""
    manifest = read_manifest(folder)
    reports = reports_of(folder, manifest)
    try:
        judged = [judged_of(folder, shard, reports[shard.name], manifest.options, scratch) for shard in manifest.shards]
    except Doubt as doubt:
        raise refusal_in(manifest, doubt) from doubt
    verdict = verdict_on(judged)
    write_whole(merged([result.path for result in judged], scratch, sizes), verdict.line, out)
    return verdict


def reports_of(folder: str, manifest: Manifest) -> Dict[str, str]:
    """The files of the reports on all shards. Raises a ShardsError if a report is missing."""
    paths = {shard.name: os.path.join(folder, shard.name + OUT) for shard in manifest.shards}
    lacking = [shard.name for shard in manifest.shards if read_report(paths[shard.name], shard.checksum) is None]
    if lacking:
        named = ", ".join(lacking[:LISTED]) + (", .." if len(lacking) > LISTED else "")
        raise ShardsError(f"{folder}: of {len(manifest.shards)} shards {len(lacking)} are not judged: {named}")
    return paths


def judged_of(folder: str, shard: Written, path: str, options: Options, scratch: str) -> Judged:
    """The report on a shard, in the words of the history."""
    report = read_report(path, shard.checksum)
    if report is None:
        raise ShardsError(f"{path}: it has changed while it was read")
    keys, places = read_map(folder, shard.name)
    statuses = statuses_of(report, keys, places, options._replace(model=shard.model))
    return write_result(os.path.join(scratch, shard.name + ".result"), statuses)


def refusal_in(manifest: Manifest, doubt: Doubt) -> Exception:
    """The message if the program refuses an event of a shard: the first refusal in the history, which is read exactly."""
    file = manifest.history
    if not file.is_unchanged():
        return ShardsError(f"{doubt}; {file.path} was removed or has changed, so the first refused event can't be found")
    line = first_refusal(file.path, manifest.options.concurrency)
    if line is None:
        return ShardsError(f"jepmon and this package differ on {file.path}, which is not judged: {doubt}")
    return Refused(line)
