"""The tokens of EDN, as Jepsen and the program `jepmon` write it: one regular expression, and the kinds of tokens.

Atoms that follow one another are one token, a run. So a map of a dozen fields has half a dozen tokens. For TOKEN_OR_MAP a flat map is one
token too. A flat map has only atoms, strings, and vectors and sets of these, as in most events.
"""
from __future__ import annotations

import re
from typing import Iterator, List, Match, Tuple

from .values import Many, Value

PLAIN = r"""[^{}\[\]()";\\\#^'`~@]*"""  # atoms, and the white space between them
STRING = r'"[^"\\]*(?:\\.[^"\\]*)*"'
VECTOR = rf"\[{PLAIN}(?:(?:{STRING}|\[{PLAIN}\]){PLAIN})*\]"
SET = rf"\#\{{{PLAIN}\}}"
FLAT = rf"\{{{PLAIN}(?:(?:{STRING}|{SET}|{VECTOR}){PLAIN})*\}}"
DEPTH_OF_MAP = 3  # collections in one another in a flat map
MEMBER = re.compile(rf'{STRING}|{SET}|{VECTOR}|[^\s,"\[\]{{}}\#]+', re.S)

ATOM_TEXT = r"""[^\s,{}\[\]()";\\\#^'`~@][^\s,{}\[\]()";\\]*"""  # a number, a keyword, a symbol
ATOM_OF_RUN = re.compile(ATOM_TEXT)
ATOM_OF_HASH = re.compile(r"""\#(?:'.+|\#[A-Za-z]+|<.*>|".*)""", re.S)
TEXT = (
    r"""[\s,]*
      (ATOM(?:[\s,]+ATOM){0,200}                            # a run of atoms
       | [{\[(}\])]
       | \#(?:\{ | _ | \^
            | '[^\s,{}\[\]()";]+ | \#[A-Za-z]+ | <[^>\n]*>   # a var, ##NaN, an object that can't be read
            | "(?:[^"\\]|\\.)*"                              # a regular expression
            | (?!")[^\s,{}\[\]()"\\;]* | ")                  # a tag; a regular expression that does not end here
       | STRING
       | ;[^\n]*                                             # a comment
       | \\(?:u[0-9a-fA-F]{4}|o[0-7]{1,3}|[A-Za-z]+|.)       # a character
       | ['`~@^]
       | .                                                   # a string that does not end here; what is no EDN
       | \Z)""".replace("ATOM", ATOM_TEXT).replace("STRING", STRING)
)
TOKEN = re.compile(TEXT, re.X | re.S)
TOKEN_OR_MAP = re.compile(TEXT.replace("(", f"({FLAT}|", 1), re.X | re.S)  # a flat map is one token


RUN, ATOM, OPEN, CLOSE, PREFIX, COMMENT, UNENDED, STRANGE, END, MAP = range(10)
MARKS = {"{": OPEN, "[": OPEN, "(": OPEN, "#{": OPEN, "}": CLOSE, "]": CLOSE, ")": CLOSE, "": END,
         "#_": PREFIX, "#^": PREFIX, "^": PREFIX, "'": PREFIX, "`": PREFIX, "~": PREFIX, "@": PREFIX,
         '"': UNENDED, '#"': UNENDED, "\\": STRANGE}
METADATA = ("^", "#^")  # two elements follow these marks: the metadata, and the element that has it


def kind_of(text: str) -> int:
    """Returns the kind of a token that is neither a mark nor a map."""
    if text[0] == ";":
        return COMMENT
    if text[0] == "#":
        return ATOM if ATOM_OF_HASH.fullmatch(text) else PREFIX
    return ATOM if text[0] in '"\\' else RUN


def atoms_of(run: Match[str]) -> Iterator[Tuple[str, int, int]]:
    """The atoms of a run, each with the places where it begins and ends."""
    for atom in ATOM_OF_RUN.finditer(run.string, run.start(1), run.end()):
        yield atom[0], atom.start(), atom.end()


def members_of(text: str) -> List[Value]:
    """The members of a flat map, or of a vector or set in one, by the text between its brackets."""
    if '"' in text or "{" in text:
        return [member_of(member) for member in MEMBER.findall(text)]
    front, opened, rest = text.partition("[")
    members: List[Value] = front.replace(",", " ").split()  # type: ignore[assignment]
    if opened:
        inner, _, back = rest.partition("]")
        if "[" in rest:
            return [member_of(member) for member in MEMBER.findall(text)]
        members.append(Many("[", tuple(inner.replace(",", " ").split())))
        members += back.replace(",", " ").split()
    return members


def member_of(text: str) -> Value:
    if text[0] == "[":
        return Many("[", tuple(members_of(text[1:-1])))
    return Many("#{", tuple(members_of(text[2:-1]))) if text[:2] == "#{" else text
