"""Files that are written at the end. At the beginning the tool tests that it can write them. A file gets its name only when it is
complete."""
from __future__ import annotations

import os
import pathlib
import stat
from typing import Dict, List, Mapping, Optional

from ..forms import Refused
from ..tools import command
from ..tools.errors import OutputError

AGAIN = "judge-again"  # a folder with this file was written by this tool
VERDICT = "verdict.txt"


class Page:
    """A file of its own, as --html names it."""

    def __init__(self, path: str) -> None:
        self.name = path  # the path as the user gave it
        self.path = pathlib.Path(os.path.realpath(path))
        _test_file(self.path, path)
        if self.path.is_file() and not _is_page(self.path):
            raise Refused(f"{path}: this file is there, and is not a page: it is not overwritten")

    @property
    def name_in_links(self) -> str:
        return self.path.name

    @property
    def folder(self) -> str:
        """Names the folder beside the page that has the pages of other keys, as links name it."""
        return f"{self.path.stem}-keys"

    @property
    def keys(self) -> pathlib.Path:
        return pathlib.Path(self.name).with_name(self.folder)

    def put(self, text: str, keys: Mapping[str, str] = {}) -> None:
        command.write_file(self.name, text)
        put_keys(self.path.with_name(self.folder), keys)

    def remove(self) -> bool:
        """Removes the files of an earlier run. Returns whether there were any."""
        was_there = self.path.is_file() and self.path.stat().st_size > 0
        if was_there:
            self.path.unlink()
            put_keys(self.path.with_name(self.folder), {})
        return was_there


class Folder:
    """A folder, as --out names it: a new folder, an empty one, or one that this tool has written before."""

    def __init__(self, path: str) -> None:
        self.path = pathlib.Path(path)
        self._made: List[pathlib.Path] = []
        try:
            self._make(self.path)
            names = os.listdir(self.path)
        except OSError as fault:
            raise Refused(f"{path}: this folder can't be made: {fault.strerror}") from fault
        if names and AGAIN not in names:
            raise Refused(f"{path}: this folder has other files: name a new one, or one that --out has written before")
        try:
            _test_file(self.path / VERDICT, str(self.path / VERDICT))
        except Refused:
            self.give_up()
            raise

    def _make(self, path: pathlib.Path) -> None:
        if not path.is_dir():
            if path.parent != path:
                self._make(path.parent)
            path.mkdir()
            self._made.insert(0, path)

    def put(self, files: Dict[str, Optional[str]], copies: Mapping[str, str] = {}) -> None:
        """Writes these files, the verdict last. Removes files without a text, which an earlier run may have left. Copies files that are
        elsewhere."""
        remove(self.path / VERDICT)
        for name, path in copies.items():
            command.copy_file(path, self.path / name)
        for name, text in sorted(files.items(), key=lambda file: file[0] == VERDICT):
            if text is None:
                remove(self.path / name)
            else:
                command.write_file(self.path / name, text)
        mode = (self.path / AGAIN).stat().st_mode & 0o777
        (self.path / AGAIN).chmod(mode | (mode & 0o444) >> 2)
        self._made = []

    def put_keys(self, name: str, pages: Mapping[str, str]) -> None:
        put_keys(self.path / name, pages)

    def give_up(self) -> None:
        """Removes the folders that were made, if nothing was written into them."""
        for folder in self._made:
            try:
                folder.rmdir()
            except OSError:
                return


def put_keys(folder: pathlib.Path, pages: Mapping[str, str]) -> None:
    """Writes these pages into a folder. They replace the pages of an earlier run, which have such names."""
    try:
        if pages:
            folder.mkdir(exist_ok=True)
        elif not folder.is_dir():
            return
        for name, text in pages.items():
            command.write_file(folder / name, text)
        for path in folder.glob("key-*.html"):
            if path.name not in pages:
                path.unlink()
        if not pages and not any(folder.iterdir()):
            folder.rmdir()
    except OSError as fault:
        raise OutputError(f"{folder}: {fault.strerror}") from fault


def _test_file(path: pathlib.Path, name: str) -> None:
    """Tests that a file can be written at this place, as far as this can be known before. A refusal calls the file by `name`."""
    try:
        if path.is_dir():
            raise Refused(f"{name}: this is a folder; name a file")
        if _is_special(path):
            if not os.access(path, os.W_OK):
                raise Refused(f"{name}: it can't be written: Permission denied")
            return
        beside = _beside(path)
        os.close(os.open(beside, os.O_CREAT | os.O_EXCL | os.O_WRONLY, 0o666))
        os.unlink(beside)
    except OSError as fault:
        raise Refused(f"{name}: it can't be written: {fault.strerror}") from fault


def _beside(path: pathlib.Path) -> pathlib.Path:
    return path.with_name(f".{path.name}.{os.getpid()}.new")


def _is_special(path: pathlib.Path) -> bool:
    """Returns whether the path is a device or a pipe, to which the tool writes directly."""
    return path.exists() and not stat.S_ISREG(path.stat().st_mode)


def _is_page(path: pathlib.Path) -> bool:
    with open(path, "rb") as file:
        front = file.read(100).lstrip()
    return front == b"" or front.startswith(b"<")


def remove(path: pathlib.Path) -> None:
    try:
        os.unlink(path)
    except FileNotFoundError:
        pass
