"""How a case starts the program: its streams, its limits, and what it said."""
import contextlib
import os
import pathlib
import resource
import subprocess

from program import PROGRAM, TOP

FOLDERS = TOP / "tests" / "cases"
SCRIPT = FOLDERS / "write_then_read"
STALE_READ = TOP / "examples" / "recorded-stale-read.edn"


def ran(*words, **more):
    """How the program ran with these words. Without an input it gets none."""
    if "input" not in more:
        more.setdefault("stdin", subprocess.DEVNULL)
    more.setdefault("stdout", subprocess.PIPE)
    more.setdefault("stderr", subprocess.PIPE)
    return subprocess.run([str(PROGRAM), *words], **{"timeout": 60, **more})


@contextlib.contextmanager
def session(*words, **more):
    """The program with pipes for its input and its output. It ends with the session."""
    with subprocess.Popen([str(PROGRAM), *words], stdin=subprocess.PIPE, stdout=subprocess.PIPE, **more) as process:
        try:
            yield process
        finally:
            process.kill()


def limited(kibibytes):
    """A limit on a program's memory, set as it starts."""
    return lambda: resource.setrlimit(resource.RLIMIT_AS, (kibibytes << 10, kibibytes << 10))


def all_shown(terminal):
    """All that was written to a terminal, or a pipe, that no program holds open any more."""
    told = b""
    with open(terminal, "rb", buffering=0) as shown:
        try:
            while piece := shown.read(65536):
                told += piece
        except OSError:  # how a terminal ends
            pass
    return told


def refused(errors):
    """The first line of standard error, where the usual cause of a refusal stands in one line behind it."""
    lines = errors.splitlines(True)
    return lines[0] if len(lines) == 2 and lines[1].endswith((b".\n", b"?\n")) else errors
