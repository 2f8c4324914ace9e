"""The file of a history: the given one, or a temporary one with the given bytes, a pipe's data, or texts that are made from other forms."""
from __future__ import annotations

import os
import stat
import sys
from typing import BinaryIO, Iterable, Iterator, NamedTuple, Union

History = Union[str, "os.PathLike[str]", bytes, Iterable[Union[bytes, str]]]

BUFFER = 1 << 20


class ReadFailed(Exception):
    """The history can't be opened or read."""


class File(NamedTuple):
    """The file of a history, as it was when the check began."""

    path: str
    length: int
    changed: int  # the time of its last change, by the clock of the file system

    def is_unchanged(self) -> bool:
        try:
            return file_of(self.path) == self
        except OSError:
            return False


def file_of(path: str) -> File:
    status = os.stat(path)
    return File(path, status.st_size, status.st_mtime_ns)


def file_from(history: History, folder: str) -> File:
    """The file of a history: the file at this path (`-` is standard input). Bytes, texts, or the data of a pipe are written to a file in
    the folder."""
    if isinstance(history, bytes):
        history = (history,)
    if isinstance(history, (str, os.PathLike)):
        return _file_of_path(os.fspath(history), folder)
    return _written((text.encode() if isinstance(text, str) else text for text in history), folder)


def _file_of_path(name: str, folder: str) -> File:
    if name == "-":
        if sys.stdin is None:
            raise ReadFailed
        return _written(pieces_of(sys.stdin.buffer), folder)
    try:
        file = open(name, "rb")
    except OSError as fault:
        raise ReadFailed from fault
    with file:
        status = os.fstat(file.fileno())
        path = os.path.realpath(name)  # /dev/stdin is another file in another process
        if stat.S_ISREG(status.st_mode) and os.path.isfile(path) and os.path.samestat(status, os.stat(path)):
            return file_of(path)
        return _written(pieces_of(file), folder)


def pieces_of(file: BinaryIO) -> Iterator[bytes]:
    while True:
        try:
            piece = file.read(BUFFER)
        except OSError as fault:
            raise ReadFailed from fault
        if not piece:
            return
        yield piece


def _written(pieces: Iterable[bytes], folder: str) -> File:
    path = os.path.join(folder, "history.edn")
    with open(path, "wb") as file:
        file.writelines(pieces)
    return file_of(path)
