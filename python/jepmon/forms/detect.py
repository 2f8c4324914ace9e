"""Finds the form of a recorded history by the beginning of its text."""
from __future__ import annotations

import re

from . import Refused, log_rows, logs, rows, tables

NOTHING, EDN, JSON, CSV, LOG, LOGFMT, LINES, TABLE = "nothing", "EDN", "JSON", "CSV", "log", "logfmt", "a log by a mapping", "a table"

GAP = re.compile(r"(?:[\s,]+|;[^\n]*)*")
# The beginning of a JSON text with an object: a name in quotes, and a colon that does not begin a keyword of EDN.
OBJECT = re.compile(r'[\[{][\s\[{]*"(?:[^"\\]|\\.)*"\s*:[^A-Za-z]')
EDN_BEHIND = re.compile(r"[\s,;]*[({\[#][\s{\[]*[:#;]")
REPR = re.compile(r"[\[({][\s\[({]*'[^'\n]*'\s*:")
COLUMNS = re.compile(r"(?:(?:\"\")?[,;\t])?[A-Za-z_ .\"'-][A-Za-z0-9_ .\"'()+-]*([,;\t][A-Za-z_ .\"'-][A-Za-z0-9_ .\"'()+-]*){2,}\s*$")
# Before a line of a log: a word in brackets, or a time.
LABEL = re.compile(r"\[(?:[A-Za-z0-9_ -]*[A-Za-z][A-Za-z0-9_ -]*|[0-9][0-9A-Za-z.,/ :+-]*[0-9]:[0-9][0-9A-Za-z.,/ :+-]*)\](?=[ ,\t]+[^\s\]}])")
YAML = re.compile(r"---[ \t]*\r?\n|- *[A-Za-z_][A-Za-z0-9_]*:[ \r\n]")
CELLS = re.compile(r"\"?-?[0-9][0-9.TZ:+ -]*\"?([,;\t][^,;\t\n]*){3,}$")  # CSV without the names of columns, whose first cell is a time
EMPTY = re.compile(r"[\s,]*[\[(][\s,]*[\])][\s,]*")
FRONT = 200_000  # characters within which a log's first event is looked for


def form_of(text: str) -> str:
    """Returns the form of a text. Raises Refused if the text has no form of a history."""
    comments = rows.COMMENTS.match(text)
    if comments is not None and EDN_BEHIND.match(text, comments.end()) is None:
        text = text[comments.end():]
    begin = GAP.match(text).end()  # type: ignore[union-attr]
    if begin == len(text) or EMPTY.fullmatch(text):
        return NOTHING
    if REPR.match(text, begin):
        raise Refused("this is printed by Python's repr, such as {'op': 'read'}: let the test print json.dumps of it")
    if text[begin] in "{[" and not LABEL.match(text, begin):
        return JSON if OBJECT.match(text, begin) else EDN
    if text[begin] in "(#":
        return EDN
    if logs.LINE.search(text, 0, FRONT):
        return LOG
    first = text[:10_000].lstrip("\r\n").split("\n", 1)[0].rstrip("\r")
    if COLUMNS.match(first) or CELLS.match(first):
        return CSV
    if log_rows.LOGFMT.fullmatch(first):
        return LOGFMT
    if tables.FRONT.match(text, begin):
        return TABLE
    if YAML.match(text, begin):
        raise Refused("this is YAML: let the test print JSON, or turn it into JSON")
    shown = text[begin:begin + 60].split("\n", 1)[0]
    raise Refused(f"the form of this history is not known: it begins with {shown!r}; --mapping FILE reads the lines of a log by a "
                  "regular expression")
