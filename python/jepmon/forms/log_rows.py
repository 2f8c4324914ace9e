"""Rows of logs: lines of logfmt, and lines that a regular expression of a mapping file takes apart."""
from __future__ import annotations

import re
from typing import Any, Dict, Iterable, Iterator, Pattern

from . import Refused
from .account import Account
from .cells import cell_value, quoted_value
from .mapping import Mapping
from .rows import BLANK, Lines, Row

PAIR = re.compile(r'([\w.@/\-]+)=(?:"((?:[^"\\]|\\.)*)"|([^\s"]*))(?:\s+|$)')
LOGFMT = re.compile(r'\s*(?:[\w.@/\-]+=(?:"(?:[^"\\\n]|\\.)*"|[^\s"]*)(?:[ \t]+|\r?$)){2,}', re.M)
ESCAPED = re.compile(r'\\(.)')
ESCAPES = {"n": "\n", "t": "\t", "r": "\r"}
OTHERS = "of a log that tell of no operation"


def of_logfmt(texts: Iterable[str], mapping: Mapping, account: Account) -> Iterator[Row]:
    """The rows of logfmt: name=value, blanks between them, and quotes around a value with blanks."""
    for number, line in enumerate(_lines(texts), 1):
        if not line.strip():
            account.skip(BLANK)
            continue
        fields: Dict[str, Any] = {}
        place = len(line) - len(line.lstrip())
        while place < len(line):
            found = PAIR.match(line, place)
            if found is None:
                raise Refused(f"line {number}: this is not name=value of logfmt: {line[place:place + 40]!r}")
            name, quoted, bare = found.groups()
            if name in fields:
                raise Refused(f"line {number}: {name} occurs twice in it")
            fields[name] = cell_value(number, bare, mapping) if quoted is None else quoted_value(number, _unescaped(quoted), mapping)
            place = found.end()
        account.took(number, number)
        yield Row(number, fields)


def of_pattern(texts: Iterable[str], mapping: Mapping, pattern: Pattern[str], account: Account) -> Iterator[Row]:
    """The lines that a pattern matches, by its named groups. A group that does not match gives no field."""
    count = 0
    for number, line in enumerate(_lines(texts), 1):
        found = pattern.search(line)
        if found is None:
            account.skip(OTHERS if line.strip() else BLANK)
            continue
        count += 1
        account.took(number, number)
        yield Row(number, {name: cell_value(number, field, mapping) for name, field in found.groupdict().items() if field is not None})
    if not count:
        raise Refused('"line" of the mapping matches no line of it')


def _lines(texts: Iterable[str]) -> Iterator[str]:
    """The lines without their ends."""
    for line in Lines(texts):
        yield line.rstrip("\r\n")


def _unescaped(text: str) -> str:
    return ESCAPED.sub(lambda found: ESCAPES.get(found.group(1), found.group(1)), text) if "\\" in text else text
