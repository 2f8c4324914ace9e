"""The translation of a history that is given as a text: its events in short, the guesses, and the reason of a refusal."""
from __future__ import annotations

import json
import re
import unittest
from typing import Any, Dict, List

from jepmon.forms import Refused, mapping
from jepmon.forms.account import ORDER
from jepmon.forms.files import of_text
from jepmon.forms.recorded import Options, Recorded, recorded


def made(text: str, **options: Any) -> Recorded:
    return recorded(of_text(text), Options(**options))


def events(text: str, **options: Any) -> List[str]:
    """The events in short: type, process, name and value."""
    return short(made(text, **options).text)


def short(text: str) -> List[str]:
    lines = [re.split(", :(?:jepsen-index|line|time) ", line)[0].replace(":type :", "").replace(":process ", "").replace(":f :", "")
             .replace(":value ", "") for line in text.splitlines() if line.startswith("{")]
    return [" ".join(line.replace(",", "").replace("{", "").replace("}", "").split()) for line in lines]


def lines(*rows: Dict[str, Any]) -> str:
    """JSON, a row a line."""
    return "".join(json.dumps(row) + "\n" for row in rows)


def operation(**fields: Any) -> Dict[str, Any]:
    """The row of a write of 1 to x from 1 to 2, with these fields too; those that are ... it does not have."""
    whole = {"client": 0, "op": "write", "key": "x", "value": 1, "start": 1, "end": 2, **fields}
    return {name: field for name, field in whole.items() if field is not ...}


class Case(unittest.TestCase):
    """A test of the translation of a text."""

    def guessed(self, text: str, **options: Any) -> List[str]:
        """The options that settle what is guessed."""
        return [guess.option for guess in made(text, **options).account.guesses]

    def assumed(self, text: str, **options: Any) -> List[str]:
        """The guess about the order."""
        return [guess.assumed for guess in made(text, **options).account.guesses if guess.of == ORDER]

    def refused(self, text: str, reason: str, **options: Any) -> None:
        with self.assertRaises(Refused) as caught:
            made(text, **options)
        self.assertIn(reason, str(caught.exception))

    def outcome(self, row: Dict[str, Any], **options: Any) -> str:
        """How the operation of a row ended."""
        return events(lines(row), **options)[-1].split(" ")[0]


def mapped(**members: Any) -> Dict[str, Any]:
    """The options of a mapping file with these members."""
    return {"mapping": mapping.of(members)}
