"""`jepmon-runs FOLDER`: from the command line to the exit status."""
from __future__ import annotations

import argparse
import pathlib
from typing import List, Optional

from ..live.run_folder import RUN_PAGE, write_whole
from ..page.captions import counted
from ..rates.document import render
from ..rates.run import page_of
from ..tools import command
from . import index
from .summary import Summary, runs_of, summaries

NAME = "runs"
DESCRIPTION = """Shows all runs of a folder at a glance: a line each, the newest first, and a page, index.html, that leads to the page of each run.

  {tool}                 the folder runs/
  {tool} elsewhere       another one
  {tool} --redraw        makes the page of each run again

A run that was killed has no page yet: it gets one. Exit status: 0; 3 if the folder cannot be read or written.
"""


class Words(command.Words):
    refusal = ValueError


def main(words: Optional[List[str]] = None) -> int:
    """Shows what the words of the command line name. Gives the exit status."""
    try:
        return _show(_parser().parse_args(words))
    except ValueError as fault:
        command.say(NAME, f"{fault}; see {command.tool(NAME)} --help")
    except command.OutputError as fault:
        command.say(NAME, str(fault))
    except KeyboardInterrupt:
        return command.INTERRUPTED
    except OSError as fault:
        command.say(NAME, f"{fault.filename or 'a file'}: {fault.strerror}")
    return command.REFUSED


def _parser() -> Words:
    called = command.tool(NAME)
    parser = Words(prog=called, description=DESCRIPTION.format(tool=called), formatter_class=argparse.RawDescriptionHelpFormatter)
    parser.add_argument("folder", metavar="FOLDER", nargs="?", default="runs", help="where the runs are (runs)")
    parser.add_argument("--redraw", action="store_true", help="make the page of each run again, also if there is one")
    parser.add_argument("--whole", action="store_true", help="with all segments of long runs, instead of the newest ones")
    return parser


def _show(given: argparse.Namespace) -> int:
    folder = pathlib.Path(given.folder)
    runs = sorted(runs_of(folder))
    if not runs:
        raise ValueError(f"{folder}: there is no run in this folder")
    for run in runs:
        if given.redraw or not (run / RUN_PAGE).is_file():
            write_whole(run / RUN_PAGE, render(page_of(run, given.whole)))
    found = summaries(folder)
    index.put(folder, found)
    command.write_output(map(line, found))
    command.write_output([f"page: {folder / index.INDEX}\n"])
    return 0


def line(run: Summary) -> str:
    about = ", ".join(part for part in (run.server, run.object, run.nemesis, f"{run.seconds} s" if run.seconds else "") if part)
    return f"{run.name}  {about + ': ' if about else ''}{counted(run.operations, 'operation')}: {run.verdict}\n"
