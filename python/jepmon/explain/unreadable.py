"""Explains why jepmon can't read a file: the reasons for `refused 11 Unreadable PLACE`."""
from __future__ import annotations

import re
from typing import Iterator, Optional

from ..edn import Reader, Unreadable
from ..tools.command import tool

BEFORE_ELEMENT = ("the map that begins here", "the set that begins here")
SEMANTIC = "the element that begins here has a key or a member twice, a key without a value, an"
DELIMITER = r'[ \t\r\n,;"\[\]{}]'


def of_unreadable(raw: bytes, place: int) -> Iterator[str]:
    """Says why the bytes are not a text of the profile. The place is the length of the longest prefix that can be read."""
    whole = of_encoding(raw)
    if whole is not None:
        yield whole
        return
    text = raw.decode("utf-8", "replace")
    begin = begin_of_atom(text, len(raw[:place].decode("utf-8", "replace")))
    try:
        for _ in Reader(text[begin:], profile=True, line=text.count("\n", 0, begin) + 1).elements():
            pass
    except Unreadable as fault:
        if not fault.reason.startswith(BEFORE_ELEMENT) and not fault.reason.endswith("more than 64 bits"):
            yield from of_fault(text, begin, fault)
            return
    yield f"line {line_of(text, begin)}: {SEMANTIC}"
    yield "integer of more than 64 bits, or a string whose bytes are not UTF-8"


def of_fault(text: str, begin: int, fault: Unreadable) -> Iterator[str]:
    at = begin + fault.place
    yield f"line {fault.line}: {fault.reason}"
    yield from ("    " + line[:200] for line in text[text.rfind("\n", 0, at) + 1:].split("\n", 1)[0].splitlines()[:1])
    if fault.reason.endswith("does not read"):
        yield f"{tool('from-jepsen')} takes what Jepsen writes, and leaves out what jepmon does not read"


def begin_of_atom(text: str, place: int) -> int:
    """The beginning of the atom around the place, or the place itself if no atom is there."""
    delimiter = re.compile(DELIMITER)
    while place < len(text) and place > 0 and not delimiter.search(text, place - 1, place + 1):
        place -= 1
    return place


def line_of(text: str, place: int) -> int:
    """The line of the text that follows the place and the white space there."""
    rest = text[place:]
    return text.count("\n", 0, place + len(rest) - len(rest.lstrip())) + 1


def of_encoding(raw: bytes) -> Optional[str]:
    if raw.startswith(b"from-jepsen: "):
        return f"{tool('from-jepsen')} has refused the history, and has said why"
    if raw.startswith(b"\xef\xbb\xbf"):
        return ("the file begins with a byte order mark, three bytes that jepmon does not read; "
                f"{tool('from-jepsen')} drops them")
    if raw.startswith(b"\x1f\x8b"):
        return f"the file is compressed by gzip: zcat FILE | jepmon check /dev/stdin; {tool('from-jepsen')} takes it as it is"
    if raw.startswith((b"\xff\xfe", b"\xfe\xff")):
        return "the file is UTF-16: iconv -f UTF-16 -t UTF-8 FILE converts it to UTF-8"
    if b"\0" in raw[:1000]:
        return f"byte {raw.index(0)} of the file, counted from 0, is 0: is it binary, or UTF-16?"
    return None
