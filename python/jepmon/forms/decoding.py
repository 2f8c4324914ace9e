"""Decodes the bytes of a history into text, in pieces that end with the end of a line. It unpacks gzip, and removes a byte order mark."""
from __future__ import annotations

import zlib
from typing import BinaryIO, Iterable, Iterator, List

from . import Refused

PIECE = 1 << 18  # bytes that are read at once
GZIP = b"\x1f\x8b"
MARK = b"\xef\xbb\xbf"
MARKED = "a byte order mark at its front was left out"

# Files that have to be unpacked or converted first, by their first bytes.
PACKED = (
    (b"\x28\xb5\x2f\xfd", "it is compressed by zstd: zstdcat FILE | {tool}"),
    (b"BZh", "it is compressed by bzip2: bzcat FILE | {tool}"),
    (b"\xfd7zXZ\0", "it is compressed by xz: xzcat FILE | {tool}"),
    (b"PK\x03\x04", "it is a zip archive: unpack it, and name the history in it"),
    (b"JEPSEN", "it is Jepsen's own binary file: name the history.edn beside it"),
    (b"\xff\xfe", "it is UTF-16: iconv -f UTF-16 -t UTF-8 FILE | {tool}"),
    (b"\xfe\xff", "it is UTF-16: iconv -f UTF-16 -t UTF-8 FILE | {tool}"),
)


def pieces_of(file: BinaryIO) -> Iterator[bytes]:
    """Yields the bytes of an open file in pieces."""
    while True:
        try:
            piece = file.read(PIECE)
        except OSError as fault:
            raise Refused(f"it can't be read: {fault.strerror}") from fault
        if not piece:
            return
        yield piece


def texts_of(pieces: Iterable[bytes]) -> Iterator[str]:
    """The text of these bytes, in pieces of whole lines. Refuses bytes that are not text."""
    place = 0
    for raw in whole_lines(plain(pieces)):
        try:
            text = raw.decode("utf-8")
        except UnicodeDecodeError as fault:
            raise Refused(f"it is not text: byte {place + fault.start} is not UTF-8") from fault
        if "\0" in text:
            at = place + raw.index(0)
            raise Refused(f"it is not text: a byte of it is 0, the first at place {at} (is it binary, or UTF-16?)")
        place += len(raw)
        yield text


def plain(pieces: Iterable[bytes]) -> Iterator[bytes]:
    """Yields the bytes unpacked from gzip, and without a byte order mark."""
    pieces = iter(pieces)
    front = b""
    for piece in pieces:
        front += piece
        if len(front) >= 2:
            break
    found = joined(front, pieces)
    if front.startswith(GZIP):
        found = unpacked(found)
        front = next(found, b"")
        found = joined(front, found)
    for begin, reason in PACKED:
        if front.startswith(begin):
            raise Refused(reason.format(tool="jepmon-judge"))
    if not front.startswith(MARK):
        yield from found
        return
    next(found)
    yield front[len(MARK):]
    yield from found


def joined(front: bytes, pieces: Iterator[bytes]) -> Iterator[bytes]:
    if front:
        yield front
    yield from pieces


def unpacked(pieces: Iterator[bytes]) -> Iterator[bytes]:
    """The unpacked bytes of gzip, which may have several parts. If a few bytes unpack to many, it yields these in several pieces."""
    inflate = zlib.decompressobj(wbits=31)
    for piece in pieces:
        try:
            while piece:
                if inflate.eof:
                    inflate = zlib.decompressobj(wbits=31)
                found = inflate.decompress(piece, PIECE)
                if found:
                    yield found
                piece = inflate.unconsumed_tail or inflate.unused_data
        except zlib.error as fault:
            raise Refused(f"it is compressed by gzip, and damaged: {fault}") from fault
    if not inflate.eof:
        raise Refused("it is compressed by gzip, and cut off")


def whole_lines(pieces: Iterable[bytes]) -> Iterator[bytes]:
    """The bytes, cut after line feeds."""
    held: List[bytes] = []
    for piece in pieces:
        cut = piece.rfind(b"\n") + 1
        if cut:
            held.append(piece[:cut])
            yield b"".join(held)
            held, piece = [], piece[cut:]
        held.append(piece)
    rest = b"".join(held)
    if rest:
        yield rest
