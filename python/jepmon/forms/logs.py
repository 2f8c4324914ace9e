"""Logs with one event in each line, such as Jepsen's history.txt and jepsen.log, and the logs of etcd in Porcupine's tests.

    0       :invoke :write  [7 1]                                                                   (with tabs)
    INFO  jepsen.util - 2   :invoke :write  2
    2024-05-01 10:00:00,101{GMT}    INFO    [jepsen worker 0] jepsen.util: 0        :invoke :write  [7 1]
"""
from __future__ import annotations

import json
import re
from typing import Iterator

from . import Refused
from .account import Account
from .clock import Clock
from .files import Source

LINE = re.compile(
    r"^(?:(\d{4}-\d\d-\d\d[T ]\d\d:\d\d:\d\d(?:[.,]\d+)?)?[^\n]*\bjepsen\.util[^\t\n]*[-:] )?"  # what a logger writes before it
    r"([0-9]+|:[A-Za-z][\w.-]*) *\t *:(invoke|ok|fail|info) *\t *(:[^\s]+)(?: *\t *([^\t\n]*))?(?:\t([^\n]*))?$",
    re.M,
)


class Log:
    """A log, whose lines are written in Jepsen's form in EDN. A line without an event becomes a blank line."""

    def __init__(self, source: Source) -> None:
        self._source = source

    def texts(self) -> Iterator[str]:
        clock = Clock(Account())
        for piece in self._source.texts():
            lines, place = [], 0
            for found in LINE.finditer(piece):
                stamp, process, kind, name, value, error = found.groups()
                time = clock.time(0, stamp, None)
                further = ("" if time is None else f", :time {time}") + (f", :error {json.dumps(error)}" if error else "")
                lines.append("\n" * piece.count("\n", place, found.start()))
                lines.append(f"{{:process {process}, :type :{kind}, :f {name}, :value {value or 'nil'}{further}}}")
                place = found.end()
            lines.append("\n" * piece.count("\n", place))
            yield "".join(lines)
        test_end(piece)


def test_end(last: str) -> None:
    """Refuses a text whose last line may lack its end."""
    if not last.endswith(("\n", "\r")):
        raise Refused("the last line has no line feed: was the file cut off? If it was not, add one")
