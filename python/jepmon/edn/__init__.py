"""Reads EDN, element by element, from a text or from a file in pieces: the reader of all tools.

It reads all of EDN that Jepsen writes. It skips tags and metadata: an element is read as if it had none. With `profile=True` it reads only
what the program `jepmon` reads (docs/FORMATS.md, Text), and says what is outside this profile. An atom is its own spelling, and a
collection is a Many. Text that can't be read raises Unreadable, with its line and the reason. For speed, shards have their own reader of
bytes (shards/reading.py), which test_edn_readers.py compares with this reader.
"""
from __future__ import annotations

from typing import Callable, Iterable, Iterator, List, Match, NamedTuple, NoReturn, Optional, Sequence, Tuple, Union

from . import profile as edn_profile
from .tokens import (CLOSE, COMMENT, DEPTH_OF_MAP, END, MAP, MARKS, METADATA, OPEN, PREFIX, RUN, STRANGE, TOKEN, TOKEN_OR_MAP, UNENDED,
                     atoms_of, kind_of, members_of)
from .values import CLOSING, Many, Value, canonical, fields_of, has_twice, integer, keyword, shown, spelling, string

__all__ = ["Element", "Many", "Reader", "Rows", "Unreadable", "Value", "canonical", "fields_of", "integer", "keyword", "shown", "spelling",
           "string"]

DEEPEST = 200  # collections, tags and discards in one another


Rows = Sequence[Tuple[str, ...]]


class Element(NamedTuple):
    """An element at the top of a text, or of the one vector that is the text."""

    line: int  # on which it begins
    text: str
    value: Value
    rows: Rows = ()  # if this is a run (flat maps, one a line): the requested fields of its elements

    @property
    def last_line(self) -> int:
        """The line on which it ends."""
        return self.line + self.text.count("\n")

    def each(self) -> Iterator[Element]:
        """This element, or the elements of the run, each with its value."""
        if not self.rows:
            yield self
            return
        for line, text in enumerate(self.text.split("\n")[:len(self.rows)], self.line):
            yield Element(line, text, Many("{", tuple(members_of(text[text.index("{") + 1:text.rindex("}")]))))


class Unreadable(Exception):
    """The text can't be read further than this place (characters from 0), for this reason."""

    def __init__(self, line: int, reason: str, place: int) -> None:
        super().__init__(f"line {line}: {reason}")
        self.line, self.reason, self.place = line, reason, place


Find = Callable[[str, int], Tuple[Rows, int]]  # finds a run in a text from a place on; returns it, and the place behind it
Open = Tuple[str, int, Optional[List[Value]]]  # an open collection or prefix: its text and place, and the list of members to which it belongs


class Reader:
    """Reads a text, or the pieces of a text. Each piece except the last ends with the end of a line. `line` is the number of the first
    line."""

    def __init__(self, text: Union[str, Iterable[str]], profile: bool = False, line: int = 1) -> None:
        self._pieces = iter((text,) if isinstance(text, str) else text)
        self._profile = edn_profile.Profile() if profile else None
        self._piece = ""
        self._before = 0  # characters before the piece
        self._begun: Optional[int] = None  # the place in the piece behind a run: reading continues there
        self._rest = 0  # the rest of the piece from this place on is read together with the next piece
        self._line, self._counted = line, 0  # the line of the place `_counted` in the piece
        self._stack: List[Open] = []  # collections that are open, and prefixes that wait for an element, the innermost last
        self._unwraps = False  # whether the first element is the whole text if it is a vector or list
        self._whole: Optional[Open] = None  # the vector or list that is the whole text
        self._whole_line = line
        self._is_closed = False  # whether this vector or list has ended
        self._element_line = line
        self._element_place = 0  # of the element at the top, characters from 0
        self._held = ""  # the first part of this element, which is before the piece
        self._begin = 0  # the place in the piece at which the rest of this element begins
        self._find: Optional[Find] = None

    def elements(self) -> Iterator[Element]:
        """The elements of the text."""
        return self._read()

    def history(self, find: Optional[Find] = None) -> Iterator[Element]:
        """The elements of the text, or of the one vector or list that is the text. Flat maps that `find` finds, one a line and with or
        without a tag, come as one element, a run."""
        self._unwraps, self._find = True, find
        return self._read()

    def _read(self) -> Iterator[Element]:
        stack, profile = self._stack, self._profile
        tokens, find = TOKEN if profile is not None else TOKEN_OR_MAP, self._find
        members: Optional[List[Value]] = None  # the members of the innermost collection; None at the top, and if a prefix waits for its element
        for piece, begun, is_last in self._all_parts():
            if profile is not None:
                profile.begin(piece)
            for token in tokens.finditer(piece, begun):
                text: str = token[1]
                kind = MAP if len(text) > 1 and text[0] == "{" else MARKS.get(text)
                if kind is None:
                    kind = kind_of(text) if text[0] in ';#"\\' else RUN
                if profile is not None and not profile.is_inside(token):
                    self._test_profile(profile, token, kind)
                if kind == RUN and members is not None:
                    members.extend(text.replace(",", " ").split())
                    continue
                if find is not None and (kind == MAP or kind == PREFIX) and not stack:
                    rows, self._begun = find(piece, token.start(1))
                    if rows:
                        self._begin_element("", token.start(1))
                        yield Element(self._element_line, piece[token.start(1):self._begun], "", rows)
                        break
                    self._begun = None
                if kind == CLOSE:
                    if members is None or CLOSING[stack[-1][0]] != text:
                        self._close_whole(text, token.start(1))
                        continue
                    if text == "}":
                        self._test_members(members, token.start(1))
                    opened, _, outer = stack.pop()
                    value: Value = Many(opened, tuple(members))
                    members = outer
                elif kind == MAP:
                    value = Many("{", tuple(members_of(text[1:-1])))
                    if len(value.members) % 2 == 1 or len(stack) + DEPTH_OF_MAP > DEEPEST:
                        self._test_map(value, token)
                    if members is None and not stack:
                        self._begin_element("", token.start(1))
                        yield Element(self._element_line, text, value)
                        continue
                elif kind == OPEN or kind == PREFIX:
                    if not stack and self._begin_element(text, token.start(1)):
                        continue
                    if len(stack) >= edn_profile.DEEPEST:
                        self._test_depth(token.start(1))
                    stack.append((text, self._before + token.start(1), members))
                    members = [] if kind == OPEN else None
                    continue
                elif kind == COMMENT:
                    continue
                elif kind == END:
                    break
                elif kind == UNENDED and not is_last:
                    self._rest = token.start(1)
                    break
                elif kind == STRANGE or kind == UNENDED:
                    self._refuse_token(kind, token.start(1))
                else:
                    value = text
                if members is not None:
                    members.append(value)
                    continue
                for value, begin, end in atoms_of(token) if kind == RUN else ((value, token.start(1), token.end()),):
                    if members is not None:  # an earlier atom of the run has ended a prefix
                        members.append(value)
                        continue
                    if stack:
                        members, is_dropped = self._end_prefixes()
                        if members is not None and not is_dropped:
                            members.append(value)
                        if members is not None or is_dropped:
                            continue
                    elif kind != CLOSE:
                        self._begin_element("", begin)
                    yield Element(self._element_line, self._held + piece[self._begin:end], value)
        self._test_end(members is None)

    def _begin_element(self, text: str, place: int) -> bool:
        """Begins an element at the top with this token. Returns whether it is the vector or list that is the text."""
        if self._is_closed:
            self._refuse_more(place)
        self._element_line, self._element_place = self._line_at(place), self._before + place
        self._held, self._begin = "", place
        is_whole, self._unwraps = self._unwraps and text in ("[", "("), False
        if is_whole:
            self._whole, self._whole_line = (text, self._element_place, None), self._element_line
        return is_whole

    def _close_whole(self, text: str, place: int) -> None:
        """Closes the vector or list that is the text, and refuses any other closing bracket."""
        if self._is_closed:
            self._refuse_more(place)
        if self._stack or self._whole is None or CLOSING[self._whole[0]] != text:
            self._refuse(place, f"{text!r} closes nothing" if self._profile is None else f"{text} closes nothing that is open")
        self._is_closed = True

    def _end_prefixes(self) -> Tuple[Optional[List[Value]], bool]:
        """Ends the prefixes of an element that has ended. Returns the list of members to which the element belongs, and whether the element
        is dropped."""
        members = None
        while members is None and self._stack:
            text, place, members = self._stack.pop()
            if text in METADATA:
                self._stack.append(("#", place, members))
                return None, True
            if text == "#_":
                return members, True
        return members, False

    # Pieces, and lines in them.

    def _all_parts(self) -> Iterator[Tuple[str, int, bool]]:
        """The pieces, each with the place from which it is read, and whether it is the last one. A piece with a run comes again, behind the
        run."""
        for piece, is_last in self._all_pieces():
            self._begun = 0
            while self._begun is not None:
                begun, self._begun = self._begun, None
                yield piece, begun, is_last

    def _all_pieces(self) -> Iterator[Tuple[str, bool]]:
        """The pieces, each with whether it is the last one. A piece begins with the rest of the piece before it."""
        self._piece = next(self._pieces, "")
        following = next(self._pieces, None)
        while following is not None:
            self._rest = len(self._piece)
            yield self._piece, False
            if self._stack:
                self._held += self._piece[self._begin:self._rest]
                self._begin = 0
            self._line_at(self._rest)
            self._before += self._rest
            self._counted = 0
            parts, count = [self._piece[self._rest:], following], len(following)
            following = next(self._pieces, None)
            while following is not None and count < len(parts[0]):  # so that a long string is not read again for each piece
                parts.append(following)
                count += len(following)
                following = next(self._pieces, None)
            self._piece = "".join(parts)
        yield self._piece, True

    def _line_at(self, place: int) -> int:
        """Returns the line of a place in the piece. Callers ask for places in ascending order."""
        self._line += self._piece.count("\n", self._counted, place)
        self._counted = place
        return self._line

    def _line_of(self, opened: Open) -> int:
        if not self._stack:
            return self._whole_line
        text = self._held + self._piece[self._begin:]
        return self._element_line + text.count("\n", 0, opened[1] - self._element_place)

    # What is refused.

    def _refuse(self, place: int, reason: str, opened: Optional[Open] = None) -> NoReturn:
        line = self._line_at(place) if opened is None else self._line_of(opened)
        raise Unreadable(line, reason, self._before + place)

    def _refuse_more(self, place: int) -> NoReturn:
        assert self._whole is not None
        self._refuse(place, f"more follows the {self._whole[0]!r} that has the history")

    def _refuse_token(self, kind: int, place: int) -> NoReturn:
        """Refuses a token that does not begin an element."""
        if self._is_closed:
            self._refuse_more(place)
        if kind == UNENDED:
            self._refuse(place, "the text ends within a string that begins here: was the file cut off?")
        self._refuse(place, f"this is not EDN: {self._piece[place:place + 40]!r}")

    def _test_end(self, waits: bool) -> None:
        """Refuses a text that ends within an element."""
        opened = self._stack[-1] if self._stack else None if self._is_closed else self._whole
        end = len(self._piece)
        if opened is None:
            return
        if self._profile is not None:
            self._refuse(end, "the text ends within an element: was the file cut off?")
        if self._stack and waits:
            self._refuse(end, "the text ends where an element is wanted: was the file cut off?")
        self._refuse(end, f"the text ends within the {opened[0]!r} that begins here: was the file cut off?", opened)

    def _test_depth(self, place: int) -> None:
        if self._profile is None:
            if len(self._stack) >= DEEPEST:
                self._refuse(place, f"more than {DEEPEST} collections, tags or discards stand in one another")
        elif sum(text in CLOSING for text, _, _ in self._stack) >= edn_profile.DEEPEST:
            self._refuse(place, f"here more than {edn_profile.DEEPEST} collections are open in one another")

    def _test_map(self, value: Many, token: Match[str]) -> None:
        """Tests a flat map as the reader tests a map that it reads token by token. Refuses the map if it is too deep in other collections,
        or if a key has no value."""
        if not self._stack:
            self._begin_element("{", token.start(1))
        kept = len(self._stack)
        for inner in TOKEN.finditer(self._piece, token.start(1), token.end()):
            kind = MARKS.get(inner[1])
            if kind == OPEN:
                if len(self._stack) >= DEEPEST:
                    self._test_depth(inner.start(1))
                self._stack.append((inner[1], self._before + inner.start(1), None))
            elif kind == CLOSE and len(self._stack) > kept + 1:
                self._stack.pop()
        self._test_members(list(value.members), token.end() - 1)
        del self._stack[kept:]

    def _test_profile(self, profile: edn_profile.Profile, token: Match[str], kind: int) -> None:
        """Refuses a token that is outside the profile. Refuses also white space before it or in it that the profile does not have."""
        places = [place for _, place, _ in atoms_of(token)] if kind == RUN else [token.start(1)] if kind != COMMENT else []
        found = profile.outside(token, places)
        if found is not None:
            self._refuse(*found)

    def _test_members(self, members: List[Value], place: int) -> None:
        """Refuses a map with a key that has no value, and in the profile two keys or members that are equal."""
        is_map = self._stack[-1][0] == "{"
        if is_map and len(members) % 2 == 1:
            self._refuse(place, "the map that begins here has a key without a value", self._stack[-1])
        if self._profile is not None and has_twice(members[0::2] if is_map else members):
            what = "map that begins here has a key" if is_map else "set that begins here has a member"
            self._refuse(place, f"the {what} twice", self._stack[-1])
