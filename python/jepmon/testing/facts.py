"""A test's own facts in the folder of its run: the command line, the options, the server and its version. Also the pages, which are made at
the end of each test, however it ends."""
from __future__ import annotations

import json
import pathlib
import shlex
import subprocess
import sys
from typing import TYPE_CHECKING, Dict, Sequence

from ..live.run_folder import RUN_FACTS, write_whole
from ..rates import run as page
from ..runs import index
from ..tools import command

if TYPE_CHECKING:
    from .run import Given

NAME = "test"
PATIENCE = 20.0  # a server has this many seconds to print its version
NAMES = {"model": "object", "least": "min-ok", "keep_nodes": "keep-nodes"}  # the names of options, if they differ from the fields
LEFT_OUT = ("server", "out", "plant", "keep", "patience", "stages", "reserved", "times", "by_ends")  # the command line shows the last four


def facts_of(given: Given, network: str, kinds: Sequence[str]) -> Dict[str, str]:
    """The facts before the test begins. `network` is the way to strike links, and `kinds` are the possible faults."""
    words = {NAMES.get(name, name): str(value) for name, value in given._asdict().items() if name not in LEFT_OUT and value not in ("", None)}
    words.update(network=network, nodes=", ".join(f"n{number + 1}" for number in range(given.nodes)), faults=", ".join(kinds) or "none")
    planted = {"planted": f"{given.plant}: {given.server.plants[given.plant].text}"} if given.plant else {}
    return {"command": shlex.join([command.tool(NAME), *sys.argv[1:]]), "server": given.server.__name__,
            "version": version_of(given.server.version()), **words, **planted}


def version_of(words: Sequence[str]) -> str:
    """The first line that this command prints. Empty if it can't be run."""
    if not words:
        return ""
    try:
        ran = subprocess.run(list(words), stdin=subprocess.DEVNULL, stdout=subprocess.PIPE, stderr=subprocess.STDOUT, timeout=PATIENCE)
    except (OSError, subprocess.SubprocessError):
        return ""
    lines = [line.strip() for line in ran.stdout.decode("utf-8", "replace").splitlines() if line.strip()]
    return lines[0][:200] if ran.returncode == 0 and lines else ""


def leave_facts(folder: pathlib.Path, facts: Dict[str, str]) -> None:
    try:
        write_whole(folder / RUN_FACTS, json.dumps(facts, indent=1) + "\n")
    except OSError as fault:
        print(f"jepmon: {folder / RUN_FACTS} can't be written: {fault.strerror}; the test goes on without", file=sys.stderr)


def leave_pages(folder: pathlib.Path) -> None:
    """Writes the page of the run, and the page of all runs in the folder above."""
    page.leave(folder)
    index.leave(folder.parent)
