"""Rows of JSON and CSV: objects with fields, each with its line in the file.

JSON: one object a line, objects over several lines, one array of objects, one object whose only list of objects is the history, or spans as
OTLP has them. CSV: a line of column names, then a row a line; without names the columns are 1, 2, 3, ... cells.py reads the cells.
"""
from __future__ import annotations

import csv
import json
import re
from typing import Any, Dict, Iterable, Iterator, List, NamedTuple, Optional, Tuple

from . import Refused, spans, traces
from .account import Account
from .cells import DECODER, Twice, cell_value, spelled
from .mapping import Mapping
from .vocabulary import plain

SPACE = re.compile(r"(?:[\s,]+|(?:#|//)[^\n]*)*")  # white space, commas and comments
COMMENT = re.compile(r"\n[ \t]*(?:#|//)")
DATA = re.compile(r"-?[0-9]+([.:T ,-][0-9TZ:. ,-]*)?")  # a cell that is not the name of a column
COMMENTS = re.compile(r"(?:\s*#(?:[ #!]|TYPE )[^\n]*\n)+")  # comments before the first row
BLANK, BRACKETS, HEADING = "blank", "brackets alone", "the heading"
OF_A_ROW = {"f", "op", "process", "client", "clientid"}  # an object with one of these fields is a row


class Row(NamedTuple):
    """An object: its line in the file, and its fields."""

    line: int
    fields: Dict[str, Any]


# --- JSON ---


def of_json(texts: Iterable[str], mapping: Mapping, account: Account) -> Iterator[Row]:
    """The objects of a JSON text, which comes in pieces of whole lines."""
    text = _Pieces(texts)
    text.pass_gap()
    in_array = text.begins("[")
    gap = BRACKETS if in_array else BLANK
    if in_array:
        text.at += 1
        text.pass_gap()
    while text.more() and not (in_array and text.begins("]")):
        line, begin = text.line(), text.at
        account.skip_to(line, gap, text.comments())
        value, begin = _decoded(text)
        account.took(line, text.line())
        if mapping.rows is None and _is_plain(value):
            yield Row(line, value)
            yield from text.rows_a_line(account)
        else:
            yield from _rows(value, line, (text.text, begin, text.at), mapping, account)
        gap = BLANK
        text.pass_gap()
    if in_array and not text.more():
        raise Refused(f"line {text.line()}: the text ends within the array: was the file cut off?")
    if in_array:
        line = text.line()
        text.at += 1
        text.pass_gap()
        if text.more():
            raise Refused(f"line {line}: more follows the array that has the history")
    account.skip_to(text.lines() + 1, BRACKETS if in_array else BLANK, text.comments())


class _Pieces:
    """A text in pieces. It holds only the part that was not read yet."""

    def __init__(self, texts: Iterable[str]) -> None:
        self._texts = iter(texts)
        self.text, self.at = "", 0
        self._line, self._counted = 1, 0  # the line of the place `_counted` in the text
        self._last = ""
        self._comments = 0  # lines

    def rows_a_line(self, account: Account) -> Iterator[Row]:
        """Yields the next rows of the text in memory, as long as each row is an object on a line of its own."""
        text, at, line, scan = self.text, self.at, self.line(), DECODER.scan_once  # type: ignore[attr-defined]
        while text.startswith("\n{", at):
            try:
                value, end = scan(text, at + 1)
            except (ValueError, StopIteration, RecursionError, Twice):  # _decoded() reports it
                break
            if text.find("\n", at + 1, end) >= 0 or type(value) is not dict or text.find("[", at, end) >= 0 and not _is_plain(value):
                break
            at, line = end, line + 1
            account.took(line, line)
            yield Row(line, value)
        self.at, self._counted, self._line = at, at, line

    def add(self) -> bool:
        """Adds the next piece. Returns whether there is one."""
        piece = next(self._texts, None)
        if piece is None:
            return False
        self.line()
        self.text, self.at, self._counted = self.text[self.at:] + piece, 0, 0
        self._last = piece[-1:] or self._last
        return True

    def pass_gap(self) -> None:
        """Goes on past white space, commas and comments."""
        while True:
            begin = self.at
            self.at = SPACE.match(self.text, begin).end()  # type: ignore[union-attr]
            if self.at > begin + 1:
                gap = self.text[begin:self.at]
                self._comments += len(COMMENT.findall(gap)) + (begin == 0 and gap.lstrip(" \t").startswith(("#", "//")))
            if self.at < len(self.text) or not self.add():
                return

    def comments(self) -> int:
        """The number of comment lines since the last call."""
        count, self._comments = self._comments, 0
        return count

    def more(self) -> bool:
        return self.at < len(self.text)

    def begins(self, with_this: str) -> bool:
        return self.text.startswith(with_this, self.at)

    def line(self) -> int:
        """Returns the line of the present place. The place never goes back."""
        if self.at > self._counted:
            self._line += self.text.count("\n", self._counted, self.at)
            self._counted = self.at
        return self._line

    def lines(self) -> int:
        """Returns the number of lines of the text, at its end."""
        return self.line() - (self._last == "\n" or self._last == "")


def _decoded(text: _Pieces) -> "Tuple[Any, int]":
    """Returns the value at the present place, and the place of its beginning in the text in memory."""
    while True:
        begin = text.at
        try:
            value, text.at = DECODER.raw_decode(text.text, begin)
            return value, begin
        except json.JSONDecodeError as fault:
            is_cut = fault.pos >= len(text.text.rstrip()) or fault.msg.startswith("Unterminated")
            if is_cut and text.add():
                continue
            line = text.line()
            if is_cut:
                raise Refused(f"line {line}: the text ends within the object that begins here: was the file cut off?") from fault
            line += text.text.count("\n", begin, fault.pos)
            raise Refused(f"line {line}: this is not JSON: {fault.msg}: {text.text[fault.pos:fault.pos + 40]!r}") from fault
        except Twice as fault:
            raise Refused(f"line {text.line()}: {fault}") from fault
        except RecursionError as fault:
            raise Refused(f"line {text.line()}: too many lists or objects stand in one another") from fault
        except ValueError as fault:  # a number of thousands of digits
            raise Refused(f"line {text.line()}: a number here has too many digits") from fault


def _is_plain(value: Any) -> bool:
    """Whether a value at the top is a row."""
    if type(value) is not dict:
        return False
    for field in value.values():  # a loop, since any() takes three times as long here
        if type(field) is list and field and type(field[0]) is dict:
            return False
    return True


def _rows(value: Any, line: int, place: Tuple[str, int, int], mapping: Mapping, account: Account) -> Iterator[Row]:
    """The rows of a value at the top: the value itself, or the rows of those lists in it that have the history."""
    if not isinstance(value, dict):
        raise Refused(f"line {line}: this is not an object, so not an event: {spelled(value)[:60]}")
    if mapping.rows is None and _is_history(value.get(traces.EVENTS)):
        yield from (Row(line, fields) for fields in traces.rows(line, value[traces.EVENTS], account))
        return
    path = mapping.rows or (spans.PATH if spans.PATH.split("[")[0] in value else None)
    if path is not None:
        yield from (Row(line, spans.row(member)) for member in spans.members(line, value, path))
        return
    lists = [name for name, field in value.items() if _is_history(field)]
    if len(lists) != 1 or OF_A_ROW & set(map(plain, value)):
        yield Row(line, value)
        return
    for name in value:
        if name != lists[0]:
            account.field(name)
    members = value[lists[0]]
    yield from map(Row, _lines_of_members(lists[0], members, line, place), members)


def _is_history(field: Any) -> bool:
    return isinstance(field, list) and bool(field) and all(isinstance(member, dict) for member in field)


def _lines_of_members(name: str, members: List[Any], line: int, place: Tuple[str, int, int]) -> List[int]:
    """The line of each member of a list of this name in an object."""
    text, begin, end = place
    for found in re.compile(rf"{re.escape(json.dumps(name))}\s*:\s*\[\s*").finditer(text, begin, end):
        at, lines, now, last = found.end(), [], line, begin
        try:
            for member in members:
                now, last = now + text.count("\n", last, at), at
                lines.append(now)
                value, at = DECODER.raw_decode(text, at)
                if value != member:
                    break
                at = SPACE.match(text, at).end()  # type: ignore[union-attr]
            else:
                return lines
        except ValueError:
            continue
    return [line] * len(members)


# --- CSV ---


def of_csv(texts: Iterable[str], mapping: Mapping, account: Account) -> Iterator[Row]:
    """The rows of a CSV text, which comes in pieces of whole lines."""
    lines = Lines(texts, '"')
    first_line = lines.front()
    reader = csv.reader(lines, delimiter=delimiter(first_line), strict=True, skipinitialspace=True)
    columns: Optional[List[str]] = list(mapping.columns) if mapping.columns else None
    first = 1
    try:
        for cells in reader:
            line, first = first, reader.line_num + 1
            if not any(cells) or columns is None and cells[0].startswith("#"):
                account.skip("comment" if any(cells) else BLANK, reader.line_num + 1 - line)
                continue
            if columns is None:
                columns = columns_of(line, cells)
                if columns[0] != "1":
                    account.skip(HEADING, reader.line_num + 1 - line)
                    continue
            if len(cells) != len(columns):
                raise Refused(f"line {line}: it has {len(cells)} cells for {len(columns)} columns: was the file cut off?")
            account.took(line, reader.line_num)
            yield Row(line, {column: cell_value(line, cell, mapping) for column, cell in zip(columns, cells)})
    except csv.Error as fault:
        raise Refused(f"line {reader.line_num}: this is not CSV: {fault}") from fault


class Lines:
    """The lines of a text that comes in pieces of whole lines, each with its line feed. Refuses a last line without a line feed, since it
    may be cut off, unless it ends like a complete row."""

    def __init__(self, texts: Iterable[str], but_for: str = "\r") -> None:
        self._texts, self._but_for = iter(texts), but_for
        self._held: List[str] = []  # the next lines in reverse: the next line is the last member
        self._count = 0

    def __iter__(self) -> Iterator[str]:
        return self

    def __next__(self) -> str:
        if not self._held:
            self._take()
        self._count += 1
        return self._held.pop()

    def front(self) -> str:
        """Returns the first line that is neither blank nor a comment, or its part in memory."""
        if not self._held:
            try:
                self._take()
            except StopIteration:
                return ""
        return next((line.rstrip("\r\n") for line in reversed(self._held) if line.strip("\r\n") and not COMMENTS.match(line)), "")

    def _take(self) -> None:
        piece = next(self._texts)
        lines = [line + "\n" for line in piece.split("\n")]
        last = lines.pop()[:-1]
        if last:
            lines.append(last)
            if not last.endswith(("\r", self._but_for)):
                raise Refused(f"line {self._count + len(lines)}: the last line has no line feed: was the file cut off? If it was not, add one")
        self._held = lines[::-1]


def delimiter(first_line: str) -> str:
    return max(",;\t", key=first_line.count)


def has_heading(cells: List[str]) -> bool:
    """Whether the first line of CSV names the columns: no cell is a number or a date."""
    return not any(DATA.fullmatch(cell.strip()) for cell in cells)


def columns_of(line: int, cells: List[str]) -> List[str]:
    """The names of the columns; numbers from 1 on if the line does not name them."""
    if not has_heading(cells):
        return [str(number + 1) for number in range(len(cells))]
    names = [cell.strip() for cell in cells]
    if not names[0] and "index" not in map(plain, names):
        names[0] = "index"  # pandas and R write the numbers or names of rows without a name of the column
    twice = next((name for name in names if [plain(other) for other in names].count(plain(name)) > 1), None)
    if twice is not None:
        raise Refused(f"line {line}: two columns are called {twice!r}")
    return names
