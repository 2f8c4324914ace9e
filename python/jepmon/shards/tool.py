"""`jepmon-shards`: splits a history into shards in a folder, judges shards, and joins the results."""
from __future__ import annotations

import argparse
import os
import shlex
import signal
import sys
import tempfile
import threading
from types import FrameType
from typing import TYPE_CHECKING, Callable, Dict, Iterator, Optional

from ..forms import Refused as NoHistory
from ..history import kinds
from ..program import find_program
from ..tools import command
from ..tools.errors import ProgramError
from .checking import file_error
from .doubt import ShardsError
from .models import EACH
from .session import Refused
from .splitting import finish, join, judge, new_folder, split

if TYPE_CHECKING:
    from ..judge import large
    from ..judge import words as judge_words

NAME = "shards"
DESCRIPTION = """Judges a recorded history of any length in shards by key, on as many machines as there are.

  {tool} split HISTORY DIR     writes the shards of a history, and prints the name of each
  {tool} judge SHARD..         has jepmon check judge shards; judged ones are not judged again
  {tool} join DIR              prints the report of one check of the whole history, if all shards are judged

With GNU parallel, on this machine, or on others where {tool} and jepmon are installed:

  {tool} split history.edn DIR
  parallel --retries 3 {tool} judge ::: DIR/*.edn
  parallel --retries 3 --sshloginfile HOSTS --transferfile {{}} --return {{.}}.out --cleanup {tool} judge ::: DIR/*.edn
  {tool} join DIR

Exit status of split and judge: 0, or 3 on failure. Of join: 0 legal, 1 illegal, 2 unknown, 3 no verdict.
"""
CHUNK = 1 << 18


class Words(command.Words):
    refusal = ShardsError


def words() -> argparse.Namespace:
    called = command.tool(NAME)
    parser = Words(prog=called, description=DESCRIPTION.format(tool=called), formatter_class=argparse.RawDescriptionHelpFormatter)
    tools = parser.add_subparsers(dest="word", metavar="split|judge|join", required=True)
    of_split = tools.add_parser("split", help="write the shards of a history into a folder")
    of_split.add_argument("history", metavar="HISTORY", help="a file or a folder; - is standard input")
    of_split.add_argument("folder", metavar="DIR", help="a new folder, or an empty one")
    of_split.add_argument("--concurrency", type=int, metavar="N", help="the threads of the clients, instead of the number found")
    of_split.add_argument("--model", type=kinds.model_of, choices=tuple(kinds.MODELS), metavar="NAME",
                          help="the object that each key is, instead of the one found")
    of_split.add_argument("--budget", type=int, default=kinds.BUDGET, metavar="N",
                          help=f"the greatest number of ends (possible outcomes) of a key ({kinds.BUDGET})")
    command.add_by_ends(of_split)
    of_split.add_argument("--jobs", type=int, metavar="N", help="processes that read the history side by side")
    of_split.add_argument("--temporary", metavar="DIR", help="the folder for temporary files")
    of_judge = tools.add_parser("judge", help="have shards judged")
    of_judge.add_argument("shards", nargs="+", metavar="SHARD", help="files that split has written")
    of_join = tools.add_parser("join", help="join the judged shards")
    of_join.add_argument("folder", metavar="DIR", help="the folder of the shards")
    try:
        return parser.parse_args()
    except ShardsError as fault:
        raise ShardsError(f"{fault}; see {called} --help") from fault


def work() -> int:
    given = words()
    doing: Dict[str, Callable[[argparse.Namespace], int]] = {"split": splits, "judge": judges, "join": joins}
    try:
        return doing[given.word](given)
    except Refused as refused:
        command.write_output([f"{refused}\n"])
    except NoHistory as fault:
        command.say(NAME, str(fault))
    return command.REFUSED


def splits(given: argparse.Namespace) -> int:
    from ..forms import files
    from ..judge import by_shards, large, words as judge_words  # these modules need this package

    more = [word for name in ("concurrency", "model", "budget", "jobs", "temporary") for value in [getattr(given, name)]
            if value is not None for word in (f"--{name}", str(value))]
    more += ["--by-ends"] if given.by_ends else []
    asked = judge_words.given([given.history, *more])
    source = files.several(asked.histories)
    for note in source.notes:
        command.say(NAME, note)
    found = large.asked(source, asked)
    with new_folder(given.folder):
        try:
            return _split(given, asked, found)
        except Refused as refused:
            if found.made is not None or by_shards.is_last_word(str(refused), asked):
                raise
        return _split(given, asked, large.of_jepsen(source, asked))


def _split(given: argparse.Namespace, asked: "judge_words.Given", found: "large.Large") -> int:
    from ..judge import by_shards

    history = by_shards.asked(asked, found)
    with by_shards.opened(asked, found, history) as session:
        choice = by_shards.chosen(session.tally, given.model, history.made)
        options = session.options._replace(model=choice.common or EACH)
        shards = split(session, options, given.folder)
        finish(session, options, given.folder, shards)
    command.say(NAME, f"{found.name}: {session.tally.events:,} events, shards: {len(shards)}; "
                f"{f'model {choice.common}' if choice.common else 'each key by its own model'}, "
                f"concurrency {options.concurrency}, budget {options.budget}")
    command.write_output(os.path.join(given.folder, f"{shard.name}.edn") + "\n" for shard in shards)
    return 0


def judges(given: argparse.Namespace) -> int:
    program, failed = find_program(), 0
    for path in given.shards:
        try:
            judge(path, program)
        except (ProgramError, command.OutputError) as fault:
            command.say(NAME, f"{shlex.quote(path)}: {fault}")
            failed += 1
    return command.REFUSED if failed else 0


def joins(given: argparse.Namespace) -> int:
    try:
        with tempfile.TemporaryDirectory(prefix="jepmon-shards-") as scratch:
            path = os.path.join(scratch, "report.txt")
            with open(path, "wb") as out:
                verdict = join(given.folder, scratch, out)
            command.write_output(texts_of(path))
            return verdict.status
    except OSError as fault:
        raise file_error(fault, given.folder) from fault


def texts_of(path: str) -> Iterator[str]:
    with open(path, encoding="ascii") as file:
        yield from iter(lambda: file.read(CHUNK), "")


def terminated(number: int, _frame: Optional[FrameType]) -> None:
    sys.exit(128 + number)  # an exception, so that temporary files are removed


def main() -> int:
    if threading.current_thread() is threading.main_thread():
        signal.signal(signal.SIGTERM, terminated)
    return command.run(NAME, work)
