"""A flat map that is read as one token is what it is token by token: the same elements, and the same faults."""
import random
import unittest
from unittest import mock

from jepmon import edn
from jepmon.edn import tokens

from .fuzz import EACH

EVENT = '{:type :info, :f :cas, :value [1 [3 4]], :time 5,:process 1 :error [:timeout "a \\"b\\" ]"], :s #{1 2}, :index 7}'
# Pieces of texts, flat maps and what is nearly one among them.
PIECES = ("{", "}", "[", "]", "#{", "(", ")", '"', "\\", ";", "\n", " ", ",", "#_", "#t ", "^", "'", "`", ":a", "1", "-2", "nil", "a#b",
          "a'b", '"x [y"', '"z\\"w"', "{:a 1}", '{:a [1 2], :b "s"}', "{:k #{1 2} :v [1 [2 3]]}", "{:a}", "{}", "{[1] [[[2]]]}", "\u00a0",
          "\x1c", "é", "\\a", "##NaN", '#"re"', "\r", EVENT)


def outcome(pieces, token, is_history):
    """The elements, and the fault that ends them, where a flat map is a token of these."""
    reader = edn.Reader(iter(pieces))
    got = []
    with mock.patch.object(edn, "TOKEN_OR_MAP", token):
        try:
            for element in reader.history() if is_history else reader.elements():
                got.append(element)
        except edn.Unreadable as fault:
            got.append((fault.line, fault.reason, fault.place))
    return got


def made(draw):
    """A text, cut after some of its lines."""
    text = "".join(draw.choice(PIECES) for _ in range(draw.randrange(1, 30)))
    if draw.random() < 0.1:
        text = "[" * draw.randrange(edn.DEEPEST - 5, edn.DEEPEST + 1) + text
    lines = text.split("\n")
    pieces = [line + "\n" for line in lines[:-1]] + lines[-1:]
    return pieces if draw.random() < 0.5 else [text]


class FlatMaps(unittest.TestCase):
    def test_an_event_is_one_token(self):
        self.assertEqual(tokens.TOKEN_OR_MAP.match(EVENT)[1], EVENT)
        self.assertEqual([edn.spelling(member) for member in tokens.members_of(EVENT[1:-1])][:6],
                         [":type", ":info", ":f", ":cas", ":value", "[1 [3 4]]"])

    def test_hostile_texts(self):
        draw = random.Random(47)
        whole = 0
        for _ in range(100 * EACH):
            pieces, is_history = made(draw), draw.random() < 0.5
            whole += any(token[1][:1] == "{" and len(token[1]) > 1 for token in tokens.TOKEN_OR_MAP.finditer("".join(pieces)))
            with self.subTest(pieces=pieces, is_history=is_history):
                self.assertEqual(outcome(pieces, tokens.TOKEN_OR_MAP, is_history), outcome(pieces, tokens.TOKEN, is_history))
        self.assertGreater(whole, 300)  # which had such a token

    def test_no_text_takes_long(self):
        for text in ("{" * 2000, "{:a [" * 2000, '{:a "' * 2000, "{" + "[1 2] " * 2000, "{" + '"x" ' * 2000 + "(", "{" + "a " * 20_000,
                     "{[" + "[1] " * 2000 + "{", "{:a \"" + "\\\\" * 20_000):
            with self.subTest(text=text[:20]):
                self.assertEqual(outcome([text], tokens.TOKEN_OR_MAP, False), outcome([text], tokens.TOKEN, False))


if __name__ == "__main__":
    unittest.main()
