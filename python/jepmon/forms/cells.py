"""Values as JSON has them: cells of CSV and of logs, and decimals as they are spelled.

A decimal is a float if a double can hold it. Any other decimal keeps its spelling, as bytes. No other value is bytes, so different decimals
stay different.
"""
from __future__ import annotations

import json
import re
from typing import Any, Callable, Dict, List, Optional, Tuple, Union

from . import Refused
from .mapping import Mapping

CELL = re.compile(r'-?[0-9]+(\.[0-9]+)?([eE][+-]?[0-9]+)?|true|false|null|[\[{].*[\]}]|".*"', re.S)
WORDS = re.compile(r"\[([^\s\[\]{}\",]+(?: [^\s\[\]{}\",]+)*)\]")  # a list as Go prints it
LONGEST = 1000  # digits of an integer in a cell
HELD = 17  # characters of a decimal that a double holds for sure, if it has no exponent


class Twice(Exception):
    """An object has a member twice."""

    def __str__(self) -> str:
        return f"an object has the member {json.dumps(self.args[0])} twice"


def object_of(pairs: "List[Tuple[str, Any]]") -> Any:
    """Makes an object of its members. If MongoDB wrote a number or a date as an object, makes this number or date. Raises Twice if a member
    occurs twice."""
    if len(pairs) == 1 and pairs[0][0] in EXTENDED:
        return EXTENDED[pairs[0][0]](pairs[0][1])
    made = dict(pairs)
    if len(made) < len(pairs):
        names = [name for name, _ in pairs]
        raise Twice(next(name for name in names if names.count(name) > 1))
    return made


def decimal_of(text: str) -> "Union[float, bytes]":
    """Reads a decimal."""
    made = float(text)
    if len(text) < HELD and "e" not in text and "E" not in text or repr(made) == text:
        return made
    import decimal  # loaded here, since loading takes time and is seldom necessary

    try:
        number = decimal.Decimal(text)
    except ArithmeticError:  # the exponent has too many digits
        return text.encode()
    if number == decimal.Decimal(repr(made)):
        return made
    sign, digits, exponent = number.as_tuple()
    kept = "".join(map(str, digits)).rstrip("0")
    spelled = str(decimal.Decimal((sign, tuple(map(int, kept)), int(exponent) + len(digits) - len(kept))))
    return (spelled if "." in spelled or "E" in spelled else f"{spelled}.0").encode()


# MongoDB's Extended JSON, which mongoexport prints.
EXTENDED: Dict[str, Callable[[Any], Any]] = {"$date": lambda said: said, "$oid": lambda said: said, "$numberInt": int, "$numberLong": int,
                                             "$numberDouble": decimal_of}
DECODER = json.JSONDecoder(object_pairs_hook=object_of, parse_float=decimal_of)


def cell_value(line: int, cell: str, mapping: Mapping) -> Any:
    """Reads a cell: a number, a flag, a text in quotes, a list or an object, as JSON has them; else a text. Blanks within quotes belong to a
    text."""
    if cell.isdigit() and cell.isascii() and (cell[0] != "0" or cell == "0") and len(cell) < LONGEST:
        return int(cell)
    stripped = cell.strip()
    if stripped in mapping.absent:
        return None
    if not CELL.fullmatch(stripped):
        return cell
    try:
        return DECODER.decode(stripped)
    except Twice as fault:
        raise Refused(f"line {line}: {fault}") from fault
    except (ValueError, RecursionError):
        words = _words(line, stripped, mapping)
        return cell if words is None else words


def quoted_value(line: int, text: str, mapping: Mapping) -> Any:
    """Reads a text in quotes, such as in logfmt: as a list, an object or a text of JSON if it spells one, and otherwise as a plain text."""
    return cell_value(line, text, mapping) if text.lstrip()[:1] in ("[", "{", '"') and text.strip() else text


def _words(line: int, text: str, mapping: Mapping) -> Optional[List[Any]]:
    """Reads a list as Go prints it, [1 2]. None if the text is not such a list."""
    found = WORDS.fullmatch(text)
    return None if found is None else [cell_value(line, word, mapping) for word in found[1].split(" ")]


def spelled(value: Any) -> str:
    """Spells the value as JSON, for a message."""
    return json.dumps(value, ensure_ascii=False, default=lambda other: other.decode() if isinstance(other, bytes) else str(other))
