"""Tables that psql, mysql, sqlite3 and DuckDB print for people: a heading between or above rulers, cells between bars, and then the number
of rows. Bars and rulers may be drawn as boxes, with the types of the columns below their names."""
from __future__ import annotations

import re
from typing import Iterable, Iterator, List, Optional

from . import Refused
from .account import Account
from .cells import cell_value
from .mapping import Mapping
from .rows import BLANK, HEADING, Lines, Row, columns_of

RULED = " |+\u2500-\u257f-"  # characters of rulers
FRONT = re.compile(r"[^\n|]*\|[^\n]*\n[ |+-]*--[ |+-]*\n|\+--[+-]*\+\n|[┌╔╭┏][┬╦┳─═━]+[┐╗╮┓]\n")  # the beginning of a table
RULER = re.compile(rf"[{RULED}]*(?:--|[─═━]{{2}})[{RULED}]*")
BOX = str.maketrans("│║┃┆", "||||")
COUNT = re.compile(r"\([0-9]+ rows?\)|[0-9]+ rows? in set.*|Time: .*|\| *[0-9]+ rows?  +[0-9]+ columns? *\|")
TYPE = re.compile(r"[a-z]+[a-z0-9_ ]*(?:\([0-9, ]+\))?(?:\[\])*")
LEFT_OUT = {"·", "…", "..."}
RULERS, TYPES, COUNTS = "rulers of the table", "types of its columns", "counts of its rows"


def of_table(texts: Iterable[str], mapping: Mapping, account: Account) -> Iterator[Row]:
    """The rows of a table, which comes in pieces of whole lines."""
    columns: Optional[List[str]] = None
    is_over = is_ruled = False  # whether the table has ended; whether a ruler is under the heading
    for number, line in enumerate(Lines(texts), 1):
        text = line.rstrip().translate(BOX) if line[0] in "│║┃" else line.rstrip()
        if not text or RULER.fullmatch(text) or COUNT.fullmatch(text):
            is_over = is_over or COUNT.fullmatch(text) is not None
            is_ruled = is_ruled or columns is not None
            account.skip(BLANK if not text else COUNTS if COUNT.fullmatch(text) else RULERS)
        elif is_over:
            raise Refused(f"line {number}: more follows the table: {text[:60]!r}")
        elif columns is None:
            columns = columns_of(number, _cells(number, text))
            account.skip(HEADING)
        else:
            cells = _cells(number, text)
            if not is_ruled and all(map(TYPE.fullmatch, cells)):
                account.skip(TYPES)
                continue
            if LEFT_OUT.issuperset(cells):
                raise Refused(f"line {number}: rows are left out of this table: print CSV")
            if len(cells) != len(columns):
                raise Refused(f"line {number}: it has {len(cells)} cells for {len(columns)} columns: does a cell hold a bar?")
            account.took(number, number)
            yield Row(number, {column: cell_value(number, cell, mapping) for column, cell in zip(columns, cells)})


def _cells(number: int, text: str) -> List[str]:
    """The cells of a line, with or without bars at its ends."""
    cells = (text[1:-1] if text[0] == text[-1] == "|" else text).split("|")
    if any(cell.endswith("+") for cell in cells):  # psql writes + instead of a space if a cell has several lines
        raise Refused(f"line {number}: a cell of this table has several lines: print CSV")
    return [cell.strip() for cell in cells]
