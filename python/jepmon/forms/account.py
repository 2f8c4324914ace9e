"""The account of an input: the use of each of its lines, and the assumptions that the input does not state.

`recorded` makes an Account for each reading and returns it as Recorded.account. Every reader of a form gets the account and records in it

    account.took(first, last)             the lines of one event or operation in the file, in the order of the file
    account.skip("blank", 2)              lines that belong to no event, with the reason: a short noun phrase
    account.guess(KEY, "..", "--key K")   an assumption, and the option that settles it

and at the end account.close(lines), with the number of lines of the input. If a line is missing in the account, the input is refused. Parts
of an input that are read separately (several files, pieces of a long file) have accounts of their own, and add() joins these.

jepmon-judge prints told(). With --strict-input, test_strict() then refuses if there is a guess. An Account holds no file and no function,
so that a process can send it to another process.
"""
from __future__ import annotations

import collections
from typing import Counter, Iterator, List, NamedTuple

from . import Refused

# The subjects of guesses.
MODEL, KEY, CLIENT, UNIT, ORDER, TYPE, ABSENT, OUTCOME = (
    "the model", "the key", "the client", "the unit of time", "the order", "the type of values", "the absent value", "the outcome")


class Guess(NamedTuple):
    """Something that the input does not say."""

    of: str  # one of the subjects above
    assumed: str  # the assumption, and the reason for it
    option: str  # the option that settles it, as the user writes it

    def __str__(self) -> str:
        return f"guess of {self.of}: {self.assumed}; {self.option} settles it"


class Account:
    """The lines of an input that were used or skipped, and the guesses about it."""

    def __init__(self) -> None:
        self.lines = 0  # the lines of the input, once the account is closed
        self.taken = 0  # lines that hold an event or a part of one
        self.skipped: Counter[str] = collections.Counter()  # the number of lines without an event, by the reason
        self.guesses: List[Guess] = []
        self.fields: List[str] = []  # the fields that were not used, as a user names them
        self._until = 0  # the last line that was taken
        self._latest = 0  # the number of lines that were taken last

    def took(self, first: int, last: int) -> None:
        """Records the lines of an event. A line that holds several events counts once."""
        if first > self._until:
            self._latest, self._until = last - first + 1, last
        else:
            self._latest = max(last - self._until, 0)
            self._until = max(self._until, last)
        self.taken += self._latest

    def drop(self, reason: str) -> None:
        """Skips the lines that were taken last: they hold no event."""
        self.taken -= self._latest
        self.skip(reason, self._latest)
        self._latest = 0

    def took_none(self, reason: str, first: int, last: int) -> None:
        """Records lines that are not events, with the reason. It does not count a line that also holds a part of an event."""
        if last > self._until:
            self.skip(reason, last - max(first - 1, self._until))
            self._until = last

    def skip(self, reason: str, lines: int = 1) -> None:
        """Records lines without an event."""
        if lines:
            self.skipped[reason] += lines

    def guess(self, of: str, assumed: str, option: str) -> None:
        """Records an assumption, once."""
        guess = Guess(of, assumed, option)
        if guess not in self.guesses:
            self.guesses.append(guess)

    def field(self, name: str) -> None:
        """Records a field that was not used."""
        if name not in self.fields:
            self.fields.append(name)

    def skip_to(self, line: int, reason: str, comments: int = 0) -> None:
        """Records the lines between the last line taken and this line, with the number of comments among them."""
        if line > self._until + 1:
            self.skip(reason, line - 1 - self._until - comments)
            self.skip("comment", comments)
            self._until = line - 1

    def close(self, lines: int) -> None:
        """Tests that each line of the input is accounted for."""
        self.lines = lines
        if self.taken + sum(self.skipped.values()) != lines:
            raise Refused(f"a fault of this program: of {lines} lines {self.taken} are of events, and {sum(self.skipped.values())} were "
                          "skipped: nothing was judged")

    def add(self, other: Account) -> None:
        """Joins the account of another part of the input, which was closed."""
        self.lines += other.lines
        self.taken += other.taken
        self.skipped.update(other.skipped)
        for guess in other.guesses:
            self.guess(*guess)
        for name in other.fields:
            self.field(name)

    def told(self) -> Iterator[str]:
        """The sentences about the lines, and about each guess."""
        if self.skipped:
            reasons = ", ".join(f"{count} {reason}" for reason, count in self.skipped.items())
            yield f"{self.lines} lines, {self.taken} of events; skipped: {reasons}"
        if self.fields:
            yield f"fields that were not looked at: {', '.join(self.fields)}"
        yield from map(str, self.guesses)

    def test_strict(self) -> None:
        """Refuses guesses, for --strict-input."""
        if self.guesses:
            options = ", ".join(dict.fromkeys(guess.option for guess in self.guesses))
            raise Refused(f"--strict-input takes no guess, and there {_are(len(self.guesses))}: say {options}")


class Shifted(Account):
    """The account of one of several files, whose lines are numbered after those of the files before it."""

    def __init__(self, account: Account, base: int) -> None:
        super().__init__()
        self._account, self._base = account, base

    def took(self, first: int, last: int) -> None:
        self._account.took(first + self._base, last + self._base)

    def skip(self, reason: str, lines: int = 1) -> None:
        self._account.skip(reason, lines)

    def skip_to(self, line: int, reason: str, comments: int = 0) -> None:
        self._account.skip_to(line + self._base, reason, comments)

    def guess(self, of: str, assumed: str, option: str) -> None:
        self._account.guess(of, assumed, option)

    def field(self, name: str) -> None:
        self._account.field(name)


def lines_of(text: str) -> int:
    """Returns the number of lines of a text. The last line may lack its line feed."""
    return text.count("\n") + (not text.endswith("\n") and text != "")


def _are(count: int) -> str:
    return "is 1" if count == 1 else f"are {count}"
