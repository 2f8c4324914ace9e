"""The page of all runs of a folder."""
from __future__ import annotations

import html
import pathlib
import string
import sys
from typing import Sequence
from urllib.parse import quote

from ..page.document import hashed
from ..page.document import resource as of_page
from ..page.labels import printable
from ..tools import command
from ..tools.errors import OutputError
from .summary import Summary, summaries

INDEX = "index.html"
HERE = pathlib.Path(__file__).resolve().parent
MARK = "<!-- jepmon-runs -->"  # a page with this mark may be overwritten
HEAD = ("begun", "server", "object", "nemesis", "seconds", "operations", "verdict", "pages")
BADGES = ("legal", "illegal", "unknown", "lost", "crashed")


def leave(folder: pathlib.Path) -> None:
    """Makes the page of a folder again. Raises nothing, since a failure here must not change the verdict of a run."""
    try:
        put(folder, summaries(folder))
    except OSError as fault:
        print(f"jepmon: {folder / INDEX} can't be written: {fault.strerror}", file=sys.stderr)
    except OutputError as fault:
        print(f"jepmon: {fault}", file=sys.stderr)


def put(folder: pathlib.Path, runs: Sequence[Summary]) -> None:
    """Writes the page. If a file of this name is not such a page, leaves it unchanged and raises a FileExistsError."""
    path = folder / INDEX
    if path.exists() and MARK not in path.read_text("utf-8", errors="replace")[:400]:
        raise FileExistsError(17, "this file is there, and is not a page of jepmon-runs", str(path))
    command.write_file(path, render(folder, runs))  # a new file each time, since several tests may write the page at once


def render(folder: pathlib.Path, runs: Sequence[Summary]) -> str:
    style = of_page("palette.css") + (HERE / "style.css").read_text("utf-8")
    text = string.Template((HERE / "index.html").read_text("utf-8")).substitute(
        mark=MARK, policy=f"default-src 'none'; img-src data:; style-src {hashed(style)}", style=style,
        title=escaped(f"runs in {folder.absolute().name}"), counted=counted(runs), head="".join(f"<th>{name}</th>" for name in HEAD),
        rows="".join(map(row, runs)))
    return text.encode("utf-8", "backslashreplace").decode("utf-8")


def counted(runs: Sequence[Summary]) -> str:
    """Returns the number of runs with each verdict."""
    words = {word: sum(run.word == word for run in runs) for word in (*BADGES, "no")}
    return f"{len(runs):,} runs: " + ", ".join(f"{count:,} {'without a verdict' if word == 'no' else word}" for word, count in words.items()
                                               if count)


def row(run: Summary) -> str:
    badge = run.word if run.word in BADGES else "none"
    pages = " ".join(f'<a href="{html.escape(quote(there))}">{name}</a>' for name, there in (("run", run.page), ("bad key", run.why)) if there)
    cells = [escaped(cell) for cell in (run.begun or run.name, run.server, run.object, run.nemesis, run.seconds)]
    cells += [f"{run.operations:,}", f'<span class="badge {badge}">{escaped(run.verdict[:160])}</span>', pages]
    return "<tr>" + "".join(f'<td data-name="{name}">{cell}</td>' for name, cell in zip(HEAD, cells)) + "</tr>\n"


def escaped(text: str) -> str:
    return html.escape(printable(text))
