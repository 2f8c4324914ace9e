"""The part of EDN that the program `jepmon` reads (docs/FORMATS.md, Text), token by token. It describes the tokens outside this part in
words."""
from __future__ import annotations

import re
from typing import Iterable, Match, Optional, Tuple

DEEPEST = 32  # collections in one another
INTEGERS = range(-(1 << 63), 1 << 63)
MARKS = frozenset(("{", "[", "#{", "}", "]", "#_", "", '"'))  # "" is the end of the text, and '"' is a string that does not end

ATOM = r"(?::[A-Za-z][A-Za-z0-9_?!*.-]*|[+-]?(?:0|[1-9][0-9]{0,17})|nil|true|false)"  # without the longest integers
WHOLE_ATOM = ATOM + r'(?![^ \t\r\n,;"\[\]{}()])'
RUN = ATOM + rf"(?:[ \t\r\n,]+{ATOM})*"
STRING = r'"(?:[^"\\]|\\[trn\\"])*"'
SPELLED = r'\\.[^ \t\r\n,;"\[\]{}()]*|"|\(|\)|[^ \t\r\n,;"\[\]{}()]+'
OTHER_SPACE = r"[^\S \t\r\n]"  # white space that the program does not accept as white space

# The kind of a token that is outside the profile, by its spelling.
OUTSIDE = (
    (r".*\ufffd.*", "bytes that are not UTF-8"),
    (r".*\s.*", "text with white space that is neither a space, a tab nor the end of a line"),
    (r":", "a colon by itself, as JSON has it"),
    (r"#[^_{].*", "a tag or a record"),
    (r"[()]", "a list"),
    (r":[^/]+/.*", "a keyword with a namespace"),
    (r"[+-]?[0-9]+N", "an integer with the suffix N"),
    (r"[+-]?[0-9]+/[0-9]+", "a ratio"),
    (r"[+-]?0[0-9]+", "an integer with a leading 0"),
    (r"[+-]?[0-9]+(\.[0-9]*)?([eE][+-]?[0-9]+)?M?|##.*", "a number that is not an integer"),
    (r"[+-]?[0-9].*", "no number"),
    (r"\\.*", "a character"),
)
ESCAPES = 'a string that begins here has an escape other than \\t \\r \\n \\\\ \\", which jepmon does not read'


class Profile:
    """Tests tokens. The regular expressions are compiled when a Profile is made, since most readers need none."""

    def __init__(self) -> None:
        self._token = re.compile(f"{RUN}|{STRING}")
        self._space = re.compile(OTHER_SPACE)
        self._piece = ""
        self._has_space = False

    def begin(self, piece: str) -> None:
        """Begins a piece of the text: the next tokens are from this piece."""
        self._piece, self._has_space = piece, self._space.search(piece) is not None

    def is_inside(self, token: Match[str]) -> bool:
        """Whether this token (its own text is group 1) and the white space before it are in the profile."""
        text = token[1]
        return (text in MARKS or self._token.fullmatch(text) is not None) and not self._has_space

    def outside(self, token: Match[str], places: Iterable[int]) -> Optional[Tuple[int, str]]:
        """Returns the part of a token that is outside the profile, and the place of this part. The atoms of the token begin at `places`.
        None if the whole token is inside."""
        space = self._space.search(self._piece, token.start(), token.end() if places else token.start(1))
        for place in sorted([*places, space.start()] if space else places):
            reason = reason_of(self._piece, place)
            if reason is not None:
                return place, reason
        return None


def reason_of(piece: str, place: int) -> Optional[str]:
    """Why the text at this place of the piece is outside the profile. None if it is inside."""
    if place == len(piece) or re.compile(f"{WHOLE_ATOM}|{STRING}|[{{}}\\[\\]]|#[{{_]").match(piece, place):
        return None
    if piece[place] == '"':  # the reader itself refuses a string that does not end
        return ESCAPES if re.compile(r'"(?:[^"\\]|\\.)*"', re.S).match(piece, place) else None
    spelled = re.compile(SPELLED, re.S).match(piece, place)
    text = spelled[0] if spelled else piece[place]
    if re.fullmatch(r"[+-]?[1-9][0-9]+", text):
        return None if len(text) < 1000 and int(text) in INTEGERS else f"{text[:40]} is an integer of more than 64 bits"
    what = next((what for pattern, what in OUTSIDE if re.fullmatch(pattern, text, re.S)), "a symbol")
    return f"{text[:40]} is {what}, which jepmon does not read"
