"""The common parts of the tests of shards: histories, the tools as users run them, and programs instead of jepmon."""
import contextlib
import os
import pathlib
import subprocess
import sys
import tempfile
from typing import Dict, Iterator, Tuple

from program import PROGRAM

TOP = pathlib.Path(__file__).resolve().parent.parent
LIMIT = 3000  # seconds: on a busy machine all this is slow
Ran = Tuple[int, str, str]


def environment(jepmon: str = str(PROGRAM)) -> Dict[str, str]:
    return {**os.environ, "JEPMON": os.path.abspath(jepmon), "PYTHONPATH": str(TOP / "python"), "LC_ALL": "C.UTF-8"}


def tool(*words: str, python: str = sys.executable, jepmon: str = str(PROGRAM), **more: object) -> Ran:
    ran = subprocess.run([python, "-m", "jepmon", *words], stdin=subprocess.DEVNULL, stdout=subprocess.PIPE, stderr=subprocess.PIPE,
                         universal_newlines=True, timeout=LIMIT, env=environment(jepmon), **more)  # type: ignore[call-overload]
    return ran.returncode, ran.stdout, ran.stderr


def kind_of_register() -> str:
    """The kind by which the tools judge a register: programs up to version 1.4.0 have no wide one."""
    ran = subprocess.run([str(PROGRAM), "check", "--help"], stdout=subprocess.PIPE, timeout=LIMIT)
    return "wide-register" if b"wide-register" in ran.stdout else "register"


def checked(path: pathlib.Path, *words: str) -> Tuple[int, str]:
    """The status and the report of jepmon check for registers, judged as the tools judge them."""
    ran = subprocess.run([str(PROGRAM), "check", str(path), "--model", kind_of_register(), *words], stdout=subprocess.PIPE, stderr=subprocess.DEVNULL,
                         universal_newlines=True, timeout=LIMIT)
    return ran.returncode, ran.stdout


def line(kind: str, process: int, name: str, key: int, part: object) -> str:
    return f"{{:type :{kind}, :process {process}, :f :{name}, :value [{key} {part}]}}\n"


def written(key: int, count: int) -> str:
    return "".join(line(kind, 0, "write", key, number) for number in range(count) for kind in ("invoke", "ok"))


def several(path: pathlib.Path, illegal: bool = True) -> pathlib.Path:
    """A history that is written as three shards at least."""
    read = line("invoke", 1, "read", 77, "nil") + line("ok", 1, "read", 77, 123456 if illegal else 59)
    path.write_text("".join(written(key, 60) for key in range(500)) + read)
    return path


@contextlib.contextmanager
def room() -> Iterator[pathlib.Path]:
    with tempfile.TemporaryDirectory() as folder:
        yield pathlib.Path(folder)


def script(path: pathlib.Path, text: str) -> str:
    """A program that is run in the place of jepmon."""
    path.write_text("#!/bin/sh\n" + text)
    path.chmod(0o755)
    return str(path)
