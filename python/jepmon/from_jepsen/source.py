"""The text of a history, in pieces that end with the end of a line. It can be read any number of times."""
from __future__ import annotations

import io
from typing import BinaryIO, Callable, Iterator, Protocol, Union, runtime_checkable

from ..forms import decoding, detect
from .refusal import Refusal


@runtime_checkable
class Texts(Protocol):
    """A source that gives its text in pieces, any number of times, like forms.files.Source."""

    def texts(self) -> Iterator[str]: ...


Source = Union[str, bytes, BinaryIO, Texts]


def texts_of(source: Source) -> Callable[[], Iterator[str]]:
    """A source of the pieces of the text. Refuses bytes that are not EDN text."""
    found: Texts = OfText(source) if isinstance(source, str) else OfFile(io.BytesIO(source)) if isinstance(source, bytes) else (
        source if isinstance(source, Texts) else OfFile(source))
    return lambda: tested(found.texts())


class OfText:
    """A text in memory."""

    def __init__(self, text: str) -> None:
        self._text = text

    def texts(self) -> Iterator[str]:
        yield self._text


class OfFile:
    """A file that is open for reading bytes. It can be read again if it is seekable."""

    def __init__(self, file: BinaryIO) -> None:
        self._file = file
        self._begin = file.tell() if hasattr(file, "seekable") and file.seekable() else None
        self._is_read = False

    def texts(self) -> Iterator[str]:
        if self._is_read and self._begin is None:
            raise Refusal("it has to be read twice, and can't be: give a file")
        if self._begin is not None:
            self._file.seek(self._begin)
        self._is_read = True
        return decoding.texts_of(decoding.pieces_of(self._file))


def tested(pieces: Iterator[str]) -> Iterator[str]:
    first = next(pieces, "")
    begin = detect.GAP.match(first)
    if begin is not None and detect.OBJECT.match(first, begin.end()):
        raise Refusal("it is JSON, but Jepsen's history.edn is EDN; is this the right file?")
    yield first
    yield from pieces
