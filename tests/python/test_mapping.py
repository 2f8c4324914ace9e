"""The user's words about rows: the options, the mapping file, and the table of names in docs/FORMATS.md."""
from __future__ import annotations

import argparse
import json
import pathlib
import tempfile
import unittest
from typing import Any

from jepmon.forms import Refused, mapping, mapping_words, vocabulary

from . import TOP
from .translated import Case, events, lines, made, mapped, operation


class Table(unittest.TestCase):
    def test_the_document_has_it(self) -> None:
        self.assertIn("\n".join(vocabulary.tables()), (TOP / "docs" / "FORMATS.md").read_text(encoding="utf-8"))

    def test_the_document_names_each_member_of_a_mapping_file(self) -> None:
        document = (TOP / "docs" / "FORMATS.md").read_text(encoding="utf-8")
        self.assertEqual([name for name in mapping.MEMBERS if f"| `{name}` |" not in document], [])

    def test_each_name_has_one_meaning(self) -> None:
        names = [name for names in (*vocabulary.FIELDS.values(), *vocabulary.TIMES.values()) for name in names]
        self.assertEqual(len(set(names)), len(names))
        self.assertEqual(set(names) & vocabulary.HARMLESS, set())

    def test_units(self) -> None:
        for name, slot in (("start_ms", ("call", "ms")), ("startTimeUnixNano", ("call", "ns")), ("end_s", ("return", "s")),
                           ("finishedAt", ("return", None)), ("duration_seconds", ("duration", "s")), ("elapsed", ("duration", None))):
            found = vocabulary.slot_of(name)
            assert found is not None
            self.assertEqual((found.meaning, found.unit), slot, name)
        self.assertIsNone(vocabulary.slot_of("ends_s_s"))


class Files(Case):
    def test_faults(self) -> None:
        for said, reason in (([], "a mapping is an object"), ({"field": {}}, "a mapping has no 'field'; it has fields, ignore, rows"),
                             ({"fields": {"a": "kee"}}, "there is no name 'kee'; names are client, type"), ({"ignore": "a"}, "is not a list of texts"),
                             ({"line": "("}, '"line" is not a regular expression'), ({"line": "a"}, '"line" has no named groups'),
                             ({"operations": {"PUT": "put"}}, "it is none of read, write"), ({"outcomes": {"x": "yes"}}, "it is none of invoke, ok"),
                             ({"time_unit": "h"}, "units are s, ms, us, ns"), ({"rows": 1}, '"rows" is not a text')):
            with self.subTest(said=said), self.assertRaises(Refused) as caught:
                mapping.of(said)
            self.assertIn(reason, str(caught.exception))

    def test_of_a_file(self) -> None:
        with tempfile.TemporaryDirectory() as folder:
            path = pathlib.Path(folder, "mapping.json")
            for text, reason in (("{", "this mapping is not JSON"), ('{"rows": 1}', '"rows" is not a text')):
                path.write_text(text)
                with self.assertRaisesRegex(Refused, f"{path}: .*{reason}"):
                    mapping.read(str(path))
            with self.assertRaisesRegex(Refused, "No such file"):
                mapping.read(f"{path}.none")

    def test_rows_in_nested_lists(self) -> None:
        text = json.dumps({"runs": [{"steps": [operation()]}, {"steps": [operation(start=3, end=4)]}], "title": "x"}) + "\n"
        self.assertEqual(len(events(text, **mapped(rows="runs[].steps[]"))), 4)

    def test_lines_of_a_log(self) -> None:
        text = "begin\nT1 put x 1 at 5 to 6\n\nT1 get x 1 at 7 to 8\n"
        pattern = r"^(?P<client>\w+) (?P<op>\w+) (?P<key>\w+) (?P<value>\d+) at (?P<start>\d+) to (?P<end>\d+)"
        found = made(text, **mapped(line=pattern))
        self.assertEqual((found.facts.events, dict(found.account.skipped)), (4, {"of a log that tell of no operation": 1, "blank": 1}))
        self.refused("nothing\n", '"line" of the mapping matches no line of it', **mapped(line=pattern))

    def test_columns_and_absent_cells(self) -> None:
        text = "0,put,x,1,1,2\n1,get,x,-,3,4\n"
        found = events(text, **mapped(columns=["client", "op", "key", "value", "start", "end"], absent=["-"]))
        self.assertEqual(found[-1], "ok 1 read [0 nil]")
        self.refused(text, "its columns have no names. Say what they are, for example by --map 1=key, or in a --mapping FILE")

    def test_examples(self) -> None:
        """The worked examples of docs/FORMATS.md, all of which tell of one read of an old value."""
        folder = TOP / "examples" / "rows"
        for name, count in (("requests.log", 8), ("spans.json", 6), ("java.log", 6), ("headless.csv", 6)):
            said = mapping.read(str(folder / f"{name.split('.')[0]}.mapping.json"))
            found = made((folder / name).read_text(encoding="utf-8"), mapping=said)
            self.assertEqual((found.facts.events, found.facts.outcomes["read ok"] > 0), (count, True), name)


class Options(Case):
    def given(self, *words: str) -> mapping.Mapping:
        parser = argparse.ArgumentParser()
        mapping_words.add(parser)
        return mapping_words.of(parser.parse_args(words))

    def test_map_and_ignore(self) -> None:
        row: Any = operation(key=..., value=..., **{"a.path": "x", "body": 1, "weather": 3})
        said = self.given("--map", "a.path=key", "--map", "body=value", "--ignore", "weather")
        self.assertEqual(events(lines(row), mapping=said)[0], "invoke 0 write [0 1]")
        for words, reason in (("path", "it takes FIELD=NAME"), ("path=kee", "there is no name 'kee'")):
            with self.assertRaisesRegex(Refused, reason):
                self.given("--map", words)

    def test_a_unit_by_a_name(self) -> None:
        said = self.given("--map", "took=duration_ms", "--map", "at=call")
        row: Any = operation(start=..., end=..., at="2024-05-01T10:00:00Z", took=3)
        self.assertEqual(len(events(lines(row), mapping=said)), 2)

    def test_a_path_into_objects(self) -> None:
        row: Any = operation(key=..., value=..., meta={"where": {"path": "x", "zone": 1}}, value_of={"n": 7})
        said = self.given("--map", "meta.where.path=key", "--map", "value_of.n=value", "--ignore", "meta.where.zone")
        self.assertEqual(events(lines(row), mapping=said)[0], "invoke 0 write [0 7]")

    def test_a_clock_error_has_a_unit(self) -> None:
        with self.assertRaisesRegex(Refused, "'5' is not a length of time"):
            self.given("--skew", "5")


if __name__ == "__main__":
    unittest.main()
