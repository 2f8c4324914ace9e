"""Reads texts of jepmon's profile of EDN (docs/FORMATS.md, Text) exactly, from bytes or from a file that is mapped.

A value is None (nil), an int, or a pair of a tag and its content: ("bool", b), ("keyword", bytes), ("string", bytes), ("vector", tuple),
("map", frozenset of pairs), ("set", frozenset). So two values are the same in the profile if and only if they are equal in Python.
"""
from __future__ import annotations

import mmap
import re
from typing import Any, Iterator, List, Tuple, Union

Element = Any
Data = Union[bytes, mmap.mmap]

WHITE = re.compile(rb"[ \t\n\r,]+|;[^\n]*")
TOKEN = re.compile(rb'[^ \t\n\r,;"\[\]{}]+')
KEYWORD = re.compile(rb":[A-Za-z][A-Za-z0-9\-_?!*.]*")
INTEGER = re.compile(rb"[+-]?(?:0|[1-9][0-9]*)")
STRING = re.compile(rb'"([^"\\]*(?:\\[trn\\"][^"\\]*)*)"')
ESCAPED = re.compile(rb"\\(.)")
ESCAPES = {b"t": b"\t", b"r": b"\r", b"n": b"\n", b"\\": b"\\", b'"': b'"'}
WORDS = {b"nil": None, b"true": ("bool", True), b"false": ("bool", False)}
DEEPEST = 32  # collections that are open at once
LONGEST_INTEGER = 20  # characters
INTEGERS = range(-(1 << 63), 1 << 63)


class Unreadable(Exception):
    """The text is outside the profile. The place is the length of its longest prefix that is a text."""

    def __init__(self, place: int) -> None:
        super().__init__(place)
        self.place = place


class Reader:
    """Reads the elements of a text, one after another. `at` is the place of the next element, and `good` is the length of the longest
    prefix that is known to be a text."""

    def __init__(self, data: Data, at: int = 0) -> None:
        self.data, self.at, self.good = data, at, at

    def elements(self) -> Iterator[Element]:
        while self.more():
            yield self.element(0, 0)

    def more(self) -> bool:
        """Skips the gap before the next element at the top. Returns whether there is such an element."""
        self._gap(0, 0)
        return self.at < len(self.data)

    def element(self, needed: int, depth: int) -> Element:
        """The element at this place. After it, `needed` more elements are needed before the prefix is a text, and `depth` collections are
        open."""
        start = self.data[self.at:self.at + 2]
        if start[:1] == b'"':
            value: Element = self._string()
        elif start[:1] in (b"[", b"{") or start == b"#{":
            value = self._collection(depth)
        else:
            value = self._atom(needed)
        if needed == 0:
            self.good = self.at
        return value

    def _gap(self, needed: int, depth: int) -> None:
        """Skips a gap, after which `needed` elements are missing before the prefix is a text."""
        discards = 0
        while True:
            white = WHITE.match(self.data, self.at)
            while white is not None:
                self.at = white.end()
                white = WHITE.match(self.data, self.at)
            if needed + discards == 0:
                self.good = self.at
            if self.data[self.at:self.at + 2] == b"#_":
                self.at += 2
                discards += 1
            elif discards:
                if self.at == len(self.data):
                    raise Unreadable(self.good)
                discards -= 1
                self.element(needed + discards, depth)
            else:
                return

    def _string(self) -> Element:
        match = STRING.match(self.data, self.at)
        if match is None:
            raise Unreadable(self.good)
        text = ESCAPED.sub(lambda escaped: ESCAPES[escaped.group(1)], match.group(1))
        try:
            text.decode("utf-8")
        except UnicodeDecodeError:
            raise Unreadable(self.good) from None
        self.at = match.end()
        return "string", text

    def _collection(self, depth: int) -> Element:
        if depth == DEEPEST:
            raise Unreadable(self.good)
        opened = self.data[self.at:self.at + 1]
        self.at += 2 if opened == b"#" else 1
        closing = b"]" if opened == b"[" else b"}"
        members: List[Element] = []
        is_kept = depth > 0 or opened != b"["  # a vector at the top is not an event, and may be a whole history
        while True:
            self._gap(1, depth + 1)
            if self.data[self.at:self.at + 1] == closing:
                self.at += 1
                return self._collected(opened, members)
            if self.at == len(self.data):
                raise Unreadable(self.good)
            member = self.element(1, depth + 1)
            if is_kept:
                members.append(member)

    def _collected(self, opened: bytes, members: List[Element]) -> Element:
        if opened == b"[":
            return "vector", tuple(members)
        if opened == b"#":
            if len(set(members)) != len(members):
                raise Unreadable(self.good)
            return "set", frozenset(members)
        if len(members) % 2 or len(set(members[0::2])) != len(members) // 2:
            raise Unreadable(self.good)
        return "map", frozenset(zip(members[0::2], members[1::2]))

    def _atom(self, needed: int) -> Element:
        match = TOKEN.match(self.data, self.at)
        token = match.group() if match else b""
        is_atom, value = atom_of(token)
        if not is_atom:
            length = longest_atom(token)
            if needed == 0 and length > 0:  # behind a discard the front ends with an atom, or before the discard
                self.good = self.at + length
            raise Unreadable(self.good)
        self.at += len(token)
        return value


def atom_of(token: bytes) -> Tuple[bool, Element]:
    """Returns whether the token is an atom, and its value."""
    if token in WORDS:
        return True, WORDS[token]
    if KEYWORD.fullmatch(token):
        return True, ("keyword", token[1:])
    if len(token) <= LONGEST_INTEGER and INTEGER.fullmatch(token) and int(token) in INTEGERS:
        return True, int(token)
    return False, None


def longest_atom(token: bytes) -> int:
    """The length of the longest prefix of a token that is an atom; 0 if none is."""
    keyword = KEYWORD.match(token)
    if keyword:
        return keyword.end()
    return max((n for n in range(1, min(len(token), LONGEST_INTEGER) + 1) if atom_of(token[:n])[0]), default=0)
