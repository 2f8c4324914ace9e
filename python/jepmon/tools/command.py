"""The common parts of the package's commands: messages, outputs, and exit statuses.

A user's mistake gives one clear line on standard error and status 3. Ctrl-C ends with 130. No traceback is ever shown. A file gets its name
when it is complete.
"""
from __future__ import annotations

import argparse
import contextlib
import gc
import io
import os
import sys
from typing import Any, BinaryIO, Callable, Iterable, Iterator, NoReturn, Optional, TextIO, Type, Union

from .. import __version__
from .errors import OutputError, ProgramError

__all__ = ["INTERRUPTED", "OutputError", "REFUSED", "Words", "collect_seldom", "copy_file", "printable", "run", "say", "standard_error", "standard_input",
           "temporary_files", "tool", "write_error", "write_file", "write_output"]

REFUSED = 3  # the status without a verdict
INTERRUPTED = 130
OBJECTS = 100_000  # this many objects are made before Python looks for garbage among them


def collect_seldom() -> None:
    """Makes Python look for garbage less often: a tool keeps nearly all that it reads, so there is little garbage."""
    gc.set_threshold(OBJECTS)


@contextlib.contextmanager
def temporary_files(folder: Optional[str]) -> Iterator[None]:
    """Puts all temporary files into this folder, if one is named."""
    if folder is None:
        yield
        return
    import tempfile  # loaded here, since loading takes time and is seldom necessary

    before, tempfile.tempdir = tempfile.tempdir, folder
    try:
        yield
    finally:
        tempfile.tempdir = before


def printable(text: str) -> str:
    """The text in a form that a terminal shows without obeying any control character in it."""
    if text.isprintable():
        return text
    return "".join(c if c.isprintable() or c == "\t" else c.encode("unicode_escape").decode() for c in text)


def tool(name: str) -> str:
    """The name by which the user can call a tool of this package, in the way in which this tool was called."""
    called = os.environ.get("JEPMON_CALLED")  # set by a script of the repository, such as ./jepmon-judge
    if called and os.path.basename(called) == f"jepmon-{name}":
        return called
    folder, script = os.path.split(sys.argv[0] if sys.argv else "")
    if os.path.basename(folder) == "examples":
        return f"examples/{name}"
    return f"python3 -m jepmon {name}" if (os.path.basename(folder), script) == ("jepmon", "__main__.py") else f"jepmon-{name}"


def say(name: str, line: str) -> None:
    """Prints a line on standard error, if there is one, with the name of this tool."""
    write_error(f"{name}: {line}")


def write_error(line: str) -> None:
    """Writes a line to standard error, if there is one."""
    try:
        if sys.stderr is not None:
            print(printable(line), file=sys.stderr)
    except OSError:  # nobody reads it
        abandon(sys.stderr)


def standard_error() -> TextIO:
    """Standard error, or a writer that drops everything if it is closed."""
    return sys.stderr if sys.stderr is not None else open(os.devnull, "w")


def standard_input() -> BinaryIO:
    """Standard input; an OSError if it is closed."""
    if sys.stdin is None:
        raise OSError(0, "standard input is closed: name a file, or give the history there")
    return sys.stdin.buffer


def write_output(texts: Iterable[str]) -> None:
    """Writes these texts to standard output."""
    if sys.stdout is None:
        raise OutputError("the output can't be written: standard output is closed")
    try:
        for text in texts:
            _write_whole(sys.stdout, text)
        sys.stdout.flush()
    except OSError as fault:
        abandon(sys.stdout)
        raise OutputError(f"the output can't be written: {fault.strerror}") from fault


def _write_whole(stream: TextIO, text: str) -> None:
    """Writes the whole text. With PYTHONUNBUFFERED there is no buffer, so a full disk or an ended reader may take only a part of the text,
    without an error."""
    raw = getattr(stream, "buffer", None)
    if not isinstance(raw, io.RawIOBase):
        stream.write(text)
        return
    rest = memoryview(text.encode(stream.encoding or "utf-8", stream.errors or "strict"))
    while rest:
        rest = rest[raw.write(rest) or 0:]


def abandon(stream: TextIO) -> None:
    """Drops the rest in the buffers of standard output and standard error, so that Python does not report an error about it at its end."""
    try:
        os.dup2(os.open(os.devnull, os.O_WRONLY), stream.fileno())
    except (OSError, ValueError):
        pass


def write_file(path: Union[str, "os.PathLike[str]"], data: Union[str, bytes]) -> None:
    """Writes a file. It gets its name only when it is complete. If writing fails, an earlier file with this name is unchanged."""
    whole = data.encode() if isinstance(data, str) else data
    _write_to(path, lambda file: file.write(whole))


def copy_file(source: str, path: Union[str, "os.PathLike[str]"]) -> None:
    """Copies a file. The copy gets its name only when it is complete."""
    import shutil

    with open(source, "rb") as found:
        _write_to(path, lambda file: shutil.copyfileobj(found, file, 1 << 20))


def _write_to(path: Union[str, "os.PathLike[str]"], write: Callable[[BinaryIO], object]) -> None:
    import tempfile

    named, path = path, os.path.realpath(path)  # for a link: the file to which it leads
    made: Optional[str] = None
    try:
        if os.path.exists(path) and not os.path.isfile(path):  # a device or a pipe is written directly
            with open(path, "wb") as file:
                write(file)
            return
        number, made = tempfile.mkstemp(prefix=os.path.basename(path) + ".", dir=os.path.dirname(path))
        with open(number, "wb") as file:
            write(file)
        os.chmod(made, 0o666 & ~_umask())
        os.replace(made, path)
        made = None
    except OSError as fault:
        raise OutputError(f"{named} can't be written: {fault.strerror}") from fault
    finally:
        if made is not None:
            os.unlink(made)


def _umask() -> int:
    mask = os.umask(0o077)
    os.umask(mask)
    return mask


class Words(argparse.ArgumentParser):
    """The words of a command line, with --version. A fault in the words is raised as `refusal`, whose text is one line."""

    refusal: Type[Exception] = ValueError

    def __init__(self, **options: Any) -> None:
        super().__init__(**options)
        self.add_argument("--version", action="version", version=f"jepmon (Python) {__version__}", help="show the version and exit")

    def error(self, message: str) -> NoReturn:
        raise self.refusal(message)


def add_by_ends(parser: argparse.ArgumentParser) -> None:
    """Adds the option that turns the wide kinds off."""
    parser.add_argument("--by-ends", action="store_true", help="judge keys by all their possible outcomes (ends), as jepmon check --model register "
                        "does, and not as wide kinds: more keys are unknown then")


def run(name: str, main: Callable[[], int]) -> int:
    """Does the work of a command, and gives its exit status. It prints an exception as one line."""
    status = REFUSED
    collect_seldom()
    try:
        status = main()
        write_output(())
    except KeyboardInterrupt:
        return INTERRUPTED
    except (OutputError, ProgramError) as reason:
        say(name, str(reason))
        return REFUSED
    except Exception as fault:
        say(name, f"a fault of {name} itself: {fault!r}")
        return REFUSED
    return status
