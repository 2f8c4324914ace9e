"""The grammar of texts, from docs/FORMATS.md, 'Text', in a few lines and slow: the elements of some bytes, or the length of their longest
prefix that is a text."""
import re

SPACE = b" \t\n\r,"
# The characters that may follow an atom inside a text.
BEHIND_AN_ATOM = SPACE + b';"[]{}'
ATOM = re.compile(rb"nil|true|false|[+-]?(?:0|[1-9][0-9]*)|:[A-Za-z][-A-Za-z0-9_?!*.]*")
ESCAPES = {b"t": b"\t", b"r": b"\r", b"n": b"\n", b"\\": b"\\", b'"': b'"'}
MOST_OPEN = 32


class NoText(Exception):
    """The bytes are not a text."""


class Reader:
    """Reads from a place of some bytes on, with this number of open collections."""

    def __init__(self, data):
        self.data, self.at, self.open = data, 0, 0

    def next(self, count=1):
        return self.data[self.at:self.at + count]

    def gap(self):
        while self.at < len(self.data):
            if self.next() in SPACE:
                self.at += 1
            elif self.next() == b";":
                end = self.data.find(b"\n", self.at)
                self.at = len(self.data) if end < 0 else end
            elif self.next(2) == b"#_":
                self.at += 2
                self.gap()
                self.element()
            else:
                return

    def inside(self, closing):
        """The elements up to the closing bracket, which is passed over, or up to the end of the bytes."""
        elements = []
        self.gap()
        while self.next() != closing:
            elements.append(self.element())
            self.gap()
        self.at += len(closing)
        return elements

    def element(self):
        if self.next() == b'"':
            return self.string()
        for opening, closing, made in ((b"[", b"]", vector), (b"{", b"}", pairs), (b"#{", b"}", members)):
            if self.next(len(opening)) == opening:
                self.at += len(opening)
                self.open += 1
                if self.open > MOST_OPEN:
                    raise NoText
                made = made(self.inside(closing))
                self.open -= 1
                return made
        return self.atom()

    def atom(self):
        begin = self.at
        while self.at < len(self.data) and self.next() not in BEHIND_AN_ATOM:
            self.at += 1
        atom = self.data[begin:self.at]
        if not ATOM.fullmatch(atom):
            raise NoText
        if atom[:1] in b"+-0123456789":
            if len(atom) > 20 or not -2**63 <= int(atom) < 2**63:
                raise NoText
            atom = int(atom)
        return "atom", atom

    def string(self):
        self.at += 1
        read = b""
        while self.next() != b'"':
            if self.at >= len(self.data):
                raise NoText
            if self.next() == b"\\":
                self.at += 1
                if self.next() not in ESCAPES:
                    raise NoText
                read += ESCAPES[self.next()]
            else:
                read += self.next()
            self.at += 1
        self.at += 1
        try:
            return "string", read.decode()
        except UnicodeDecodeError:
            raise NoText from None


def vector(elements):
    return "vector", tuple(elements)


def pairs(elements):
    if len(elements) % 2 or len(set(elements[::2])) * 2 < len(elements):
        raise NoText
    return "map", frozenset(zip(elements[::2], elements[1::2]))


def members(elements):
    if len(set(elements)) < len(elements):
        raise NoText
    return "set", frozenset(elements)


def elements_of(data):
    """The elements of a text, or None where the bytes are none."""
    try:
        return Reader(data).inside(b"")
    except NoText:
        return None


def longest_front(data):
    """The length of the longest prefix that is a text."""
    return next(end for end in range(len(data), -1, -1) if elements_of(data[:end]) is not None)
