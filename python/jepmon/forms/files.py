"""The place of a recorded history: a file (plain or gzip), a folder such as Jepsen's store/latest, or standard input."""
from __future__ import annotations

import bisect
import collections
import io
import os
import pathlib
import sys
from typing import IO, Callable, Iterator, List, Optional, Sequence

from . import Beyond, Refused, decoding

MOST = 1 << 30  # a text in memory has at most this many characters
FRONT = 1 << 16  # the form is found by at most this many characters
HELD = 1 << 25  # bytes of standard input that are held in memory
DEEPEST = 4  # folders within folders are searched to this depth
MOST_ENTRIES = 20_000  # at most this many entries of folders are searched
LISTED = 12  # histories that a refusal names

# The names of files with histories, the best first. The last two lack facts that the first ones have.
NAMES = ("history.edn", "history.jsonl", "history.ndjson", "history.json", "history.csv", "history.txt", "jepsen.log")
ENDINGS = (".edn", ".jsonl", ".ndjson", ".json", ".csv")
BESIDE = ("results.edn", "test.edn", "test.jepsen", "results.json")  # files that Jepsen writes beside a history
LATEST = ("latest", "current")


class Source:
    """A recorded history as it was found: a file, or the bytes of standard input. It can be read any number of times."""

    def __init__(self, name: str, path: Optional[str], opened: Callable[[], IO[bytes]], notes: Sequence[str] = ()) -> None:
        self.name = name  # its name in messages
        self.path = path  # None for standard input
        self._opened = opened
        self._text: Optional[str] = None
        self._feeds, self._last = 0, "\n"  # the number of line feeds, and the last character, of the text that was read last
        with opened() as file:
            begin = file.read(len(decoding.MARK))
        self.is_plain = path is not None and not begin.startswith((decoding.GZIP, decoding.MARK))  # whether the text is exactly the file
        self.front = self._front()  # its first lines
        marked = begin.startswith(decoding.MARK) or begin.startswith(decoding.GZIP) and self._is_marked()
        self.notes: List[str] = [*notes, *([decoding.MARKED] if marked else [])]  # notes on how it was found

    def texts(self) -> Iterator[str]:
        """The text, in pieces of whole lines."""
        self._feeds, self._last = 0, "\n"
        with self._opened() as file:
            for piece in decoding.texts_of(decoding.pieces_of(file)):  # type: ignore[arg-type]
                self._feeds += piece.count("\n")
                self._last = piece[-1:] or self._last
                yield piece

    @property
    def text(self) -> str:
        """The whole text, which is held from then on."""
        if self._text is None:
            pieces, count = [], 0
            for piece in self.texts():
                pieces.append(piece)
                count += len(piece)
                if count > MOST:
                    raise Beyond(f"it has more than {MOST:,} characters")
            self._text = "".join(pieces)
        return self._text

    def lines(self) -> int:
        """The number of lines of the text that was last read to its end. The last line may lack its line feed."""
        return self._feeds + (self._last != "\n")

    @property
    def paths(self) -> List[str]:
        """The files; none of standard input."""
        return [] if self.path is None else [self.path]

    def place(self, line: int) -> "tuple[Optional[str], int]":
        """The file of a line, and the line in it."""
        return self.path, line

    def _front(self) -> str:
        """Returns the first lines, up to the first line with a content."""
        front = ""
        for piece in self.texts():
            front += piece
            if len(front) >= FRONT and front[-len(piece):].strip(" \t\r\n,"):
                break
        return front

    def _is_marked(self) -> bool:
        with self._opened() as file:
            return next(decoding.unpacked(decoding.pieces_of(file)), b"").startswith(decoding.MARK)  # type: ignore[arg-type]


class Several(Source):
    """One history in several files, such as one file for each client. Lines are numbered through all files."""

    def __init__(self, parts: Sequence[Source]) -> None:
        self.parts = parts
        self.name = f"{parts[0].name} and {len(parts) - 1} more"
        self.path, self.is_plain = None, False
        self.front = parts[0].front
        self._text = None
        self.bases: List[int] = []  # for each file, the number of lines before its first line
        count = 0
        for part in parts:
            collections.deque(part.texts(), 0)
            self.bases.append(count)
            count += part.lines()
        self._count = count
        self.notes = [f"{part.name}: {note}" for part in parts for note in part.notes]
        self.notes.append("lines are counted through: " + ", ".join(
            f"{part.name} has {base + 1} to {end}" for part, base, end in zip(parts, self.bases, [*self.bases[1:], count])))

    def texts(self) -> Iterator[str]:
        """Yields the texts, one after another."""
        for part in self.parts:
            last = ""
            for piece in part.texts():
                last = piece
                yield piece
            if last and not last.endswith("\n"):
                yield "\n"

    def lines(self) -> int:
        return self._count

    @property
    def paths(self) -> List[str]:
        return [path for part in self.parts for path in part.paths]

    def place(self, line: int) -> "tuple[Optional[str], int]":
        number = bisect.bisect_left(self.bases, line) - 1
        return self.parts[number].path, line - self.bases[number]

    def part_of(self, line: int) -> str:
        """The name of the file that has a line."""
        return self.parts[bisect.bisect_left(self.bases, line) - 1].name


def several(words: Sequence[str]) -> Source:
    """Returns the history in these files and folders. Each of several has a part of the history; a single one has the whole history."""
    if len(words) == 1:
        return found(words[0])
    if len(set(words)) < len(words):
        raise Refused(f"{next(word for word in words if words.count(word) > 1)}: it is named twice")
    return Several([found(word) for word in words])


def found(word: str) -> Source:
    """The history that a word of the command line names: a file, a folder, or - for standard input."""
    path = "-" if word == "-" else str(located(pathlib.Path(word)))
    try:
        return opened(path, [] if path in ("-", str(pathlib.Path(word))) else [f"the history of {word} is {path}"])
    except OSError as fault:
        raise Refused(f"{path}: {fault.strerror}") from fault
    except Refused as refusal:
        raise Refused(f"{'standard input' if word == '-' else path}: {refusal}{_beside(pathlib.Path(path))}") from refusal


def opened(word: str, notes: Sequence[str] = ()) -> Source:
    """The history in a file, or in standard input; a file that can't be opened is an OSError."""
    if word == "-":
        return of_pipe("standard input", _standard_input())
    if os.path.isfile(word):
        return Source(word, word, lambda: open(word, "rb"), notes)
    with open(word, "rb") as pipe:
        return of_pipe(word, pipe)


def of_pipe(name: str, file: IO[bytes]) -> Source:
    """Returns the history that arrives through a pipe. It is kept in memory or in a file without a name, so that it can be read again."""
    kept = _Kept()
    for piece in decoding.pieces_of(file):  # type: ignore[arg-type]
        kept.file.write(piece)
    return Source(name, None, lambda: _Again(kept))  # type: ignore[arg-type,return-value]


class _Kept:
    """A file without a name. It disappears when its last reader closes it."""

    def __init__(self) -> None:
        import tempfile  # loaded here, since loading takes time and is seldom necessary

        self.file = tempfile.SpooledTemporaryFile(HELD)

    def __del__(self) -> None:
        self.file.close()


class _Again:
    """A file that stays open, read from its beginning."""

    def __init__(self, kept: _Kept) -> None:
        self._kept, self._at = kept, 0

    def read(self, size: int) -> bytes:
        self._kept.file.seek(self._at)
        piece = self._kept.file.read(size)
        self._at += len(piece)
        return piece

    def __enter__(self) -> "_Again":
        return self

    def __exit__(self, *_: object) -> None:
        pass


def of_text(text: str, name: str = "text") -> Source:
    """Returns a history whose text is in memory already."""
    return Source(name, None, lambda: io.BytesIO(text.encode()))


# --- Folders ---


def located(path: pathlib.Path) -> pathlib.Path:
    """Returns the file that a path names. For a folder it is the one history in the folder."""
    try:
        if not path.is_dir():
            return path
        return _in_folder(path)
    except OSError as fault:
        raise Refused(f"{path}: {fault.strerror}") from fault


def _in_folder(folder: pathlib.Path) -> pathlib.Path:
    for place in [folder] + [folder / name for name in LATEST]:
        for name in NAMES:
            for file in (place / name, place / (name + ".gz")):
                if file.is_file():
                    return file
    histories = sorted(_histories(folder))
    if len(histories) == 1:
        return histories[0]
    if not histories:
        raise Refused(f"{folder}: there is no history in this folder: name a file, such as history.edn of a Jepsen store")
    newest_first = histories[::-1][:LISTED]  # Jepsen's folders are named by the time
    listed = ", ".join(map(str, newest_first)) + (", .." if len(histories) > LISTED else "")
    raise Refused(f"{folder}: there are {len(histories)} histories in this folder, name one: {listed}")


def _histories(folder: pathlib.Path) -> List[pathlib.Path]:
    """The files within a folder that have the name of a history. If there are none, the files whose names end like the name of a
    history."""
    files = list(_files(folder))
    named = [file for file in files if _plain(file.name) in NAMES]
    best = {file.parent: min((other for other in named if other.parent == file.parent), key=_rank) for file in named}
    if best:
        return list(best.values())
    return [file for file in files if _plain(file.name).endswith(ENDINGS) and _plain(file.name) not in BESIDE]


def _rank(file: pathlib.Path) -> int:
    return NAMES.index(_plain(file.name))


def _plain(name: str) -> str:
    return name[:-3] if name.endswith(".gz") else name


def _files(folder: pathlib.Path) -> Iterator[pathlib.Path]:
    """The files within a folder, links to folders not followed."""
    top, left = len(folder.parts), MOST_ENTRIES
    for place, folders, names in os.walk(folder):
        if len(pathlib.Path(place).parts) - top >= DEEPEST:
            folders.clear()
        left -= len(folders) + len(names)
        if left < 0:
            raise Refused(f"{folder}: it has more than {MOST_ENTRIES} files: name a history in it")
        yield from (pathlib.Path(place, name) for name in names)


def _beside(path: pathlib.Path) -> str:
    """Names the history beside a file that is not a history."""
    beside = path.parent / "history.edn"
    return f" (it is there: {beside})" if path.name in BESIDE and beside.is_file() else ""


def _standard_input() -> IO[bytes]:
    if sys.stdin is None:
        raise Refused("standard input is closed")
    return sys.stdin.buffer
