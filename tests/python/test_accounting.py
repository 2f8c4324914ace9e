"""Each line of an input is of an event, or skipped for a named reason: for each history of the black-box cases and of the samples."""
from __future__ import annotations

import pathlib
import unittest
from typing import Iterator, Tuple

from jepmon.forms import Refused, mapping
from jepmon.forms.account import lines_of
from jepmon.forms.files import found, of_text
from jepmon.forms.recorded import Options, recorded

from . import TOP

OWN = "{:type :invoke, :process 0, :f :write, :value [7 1]}\n{:type :ok, :process 0, :f :write, :value [7 1]}\n"
TOLD = ("args", "stdout", "stderr", "status", "tool", "make.py", "expected.txt")
FOLDERS = ("judge", "samples")
MAPPED = {"slog-text": "msg=type", "pino": "worker=client", "a-go-slog": "msg=type", "l-queue": "msg=value", "logrus": "ret=return"}


def histories() -> Iterator[Tuple[pathlib.Path, mapping.Mapping]]:
    """Each file, with the mapping beside it."""
    for folder in FOLDERS:
        for path in sorted((TOP / "tests" / folder).rglob("*")):
            if path.is_file() and path.name not in TOLD and not path.name.endswith(".mapping.json"):
                beside = path.parent / f"{path.name.split('.')[0]}.mapping.json"
                said = mapping.read(str(beside)) if beside.exists() else mapping.Mapping()
                yield path, said.with_field(MAPPED[path.name.split(".")[0]]) if path.name.split(".")[0] in MAPPED else said


class Accounting(unittest.TestCase):
    def test_each_history(self) -> None:
        judged = 0
        for path, said in histories():
            with self.subTest(path=path):
                try:
                    source = found(str(path))
                    made = recorded(source, Options(mapping=said))
                except Refused:
                    continue
                account, lines = made.account, lines_of(source.text)
                self.assertEqual(account.taken + sum(account.skipped.values()), lines, f"{account.taken} and {account.skipped}")
                self.assertGreater(account.taken, 0)
                judged += 1
        self.assertGreater(judged, 60)

    def test_lines_are_counted_by_hand(self) -> None:
        events = '{"client": 0, "op": "write", "key": 1, "value": 1, "start": 1, "end": 2}'
        for text, taken, skipped in (
            (f"{events}\n\n\n", 1, {"blank": 2}),
            (f"[\n{events}\n]\n", 1, {"brackets alone": 2}),
            (f"# a run\n{events}  # one\n// two\n", 1, {"comment": 2}),
            (events.replace(", ", ",\n") + "\n", 6, {}),
            ('{"history": [\n' + events + "\n]}\n", 3, {}),
            ("op,key,value,start,end\nwrite,1,\"a\nb\",1,2\n\n", 2, {"the heading": 1, "blank": 1}),
            (f"; a run\n\n{OWN}#_{{:type :info, :process :nemesis, :f :heal, :value nil}}\n", 2, {"blank or comment": 3}),
            (f"{OWN}[:model 7 :register]\n{OWN}[:rewind 2]\n", 2, {"commands": 2, "events that were taken back": 2}),
            ('level=info msg=hello\nop=write key=1 value=1 start=1 end=2\n', 1, {"of a log that tell of no operation": 1}),
            ('{"level": "info", "msg": "hello"}\n' + events + "\n", 1, {"of a log that tell of no operation": 1}),
        ):
            with self.subTest(text=text):
                account = recorded(of_text(text), Options()).account
                self.assertEqual((account.taken, dict(account.skipped)), (taken, skipped))


if __name__ == "__main__":
    unittest.main()
