"""Which values are one, the answer of a missing key, and the first value of a key: as the user says, in every form."""
from __future__ import annotations

import json
import unittest
from typing import Any, List, Tuple

from jepmon.forms.look_alikes import alike
from jepmon.from_jepsen.meant import Meant

from .test_judge_results import Judged

Op = Tuple[str, Any]  # a write with its value, or a read with its answer


def jsonl(*operations: Op) -> str:
    rows = [{"client": 0, "key": "k", "op": name, "value" if name == "write" else "result": value, "start": 2 * at, "end": 2 * at + 1}
            for at, (name, value) in enumerate(operations)]
    return "".join(json.dumps(row) + "\n" for row in rows)


def csv(*operations: Op) -> str:
    rows = [f"0,k,{name},{value if name == 'write' else ''},{value if name == 'read' else ''},{2 * at},{2 * at + 1}"
            for at, (name, value) in enumerate(operations)]
    return "client,key,op,value,result,start,end\n" + "\n".join(rows) + "\n"


def edn(value: Any) -> str:
    return "nil" if value is None else json.dumps(value)


def jepsen(*operations: Op) -> str:
    lines: List[str] = []
    for name, value in operations:
        lines += [f"{{:type :{kind}, :f :{name}, :process 0, :value [\"k\" {edn(value if name == 'write' or kind == 'ok' else None)}]}}"
                  for kind in ("invoke", "ok")]
    return "\n".join(lines) + "\n"


def keyed(*operations: Op) -> str:
    lines: List[str] = []
    for name, value in operations:
        lines += [f"{{:process 0, :type :{kind}, :f :{name}, :key \"k\", :value {edn(value if name == 'write' or kind == 'ok' else None)}}}"
                  for kind in ("invoke", "ok")]
    return "\n".join(lines) + "\n"


def log(*operations: Op) -> str:
    lines: List[str] = []
    for name, value in operations:
        lines += [f"0\t:{kind}\t:{name}\t[\"k\" {edn(value if name == 'write' or kind == 'ok' else None)}]" for kind in ("invoke", "ok")]
    return "\n".join(lines) + "\n"


FORMS = {"jsonl": jsonl, "edn": jepsen, "keyed.edn": keyed, "log": log}


class Values(Judged):
    def status(self, text: str, *words: str, name: str = "history.jsonl") -> int:
        return self.judged(text, "--no-cause", *words, name=name).status

    def test_values_that_look_alike(self) -> None:
        """The first ways by which a write and an answer are one, and those by which they are not."""
        for written, answer, one_by in ((1, "1", ("text", "number")), (1, 1.0, ("number",)), ("1", 1.0, ("number",)), ("a", " a", ("text", "number")),
                                        (1, True, ("number",)), ("true", True, ("text", "number")), (0, False, ("number",)), ("a", "b", ()),
                                        ("1", "01", ("number",)), (10, 1e1, ("number",))):
            for way in ("exact", "text", "number"):
                for name, form in FORMS.items():
                    self.assertEqual(self.status(form(("write", written), ("read", answer)), "--values", way, name=f"h.{name}"),
                                     0 if way in one_by else 1, (written, answer, way, name))

    def test_they_are_named_and_a_guess(self) -> None:
        text = jsonl(("write", 1), ("read", "1"))
        ran = self.judged(text)
        self.assertEqual(ran.status, 3)
        self.assertIn('guess of the type of values: 1 and "1" are different values; --values exact|text|number settles it', ran.err)
        self.assertNotIn("type of values", self.judged(text, "--values", "exact").err)
        self.assertIn("--values exact|text|number", self.judged(text, "--strict-input", "--model", "register").err)
        self.assertNotIn("type of values", self.judged(jsonl(("write", "a"), ("write", "b"), ("read", "b"))).err)

    def test_keys_that_look_alike(self) -> None:
        row = {"client": 0, "start": 1, "end": 2}
        rows = [{**row, "op": "write", "key": 1, "value": 1}, {**row, "op": "read", "key": "1", "result": 1, "start": 3, "end": 4}]
        text = "".join(json.dumps(each) + "\n" for each in rows)
        ran = self.judged(text, "--no-cause")
        self.assertEqual(ran.status, 3)
        self.assertIn('the history is illegal if 1 and "1" are different keys, and legal if they are one; say --values exact or --values number', ran.err)
        self.assertEqual([self.status(text, "--initial", "5", "--values", way) for way in ("exact", "text", "number")], [1, 0, 0])

    def test_a_list_and_its_text_as_keys(self) -> None:
        row = {"client": 0, "start": 1, "end": 2}
        rows = [{**row, "op": "enqueue", "key": ["t", 0], "value": 1}, {**row, "op": "dequeue", "key": "['t', 0]", "result": 1, "start": 3, "end": 4}]
        text = "".join(json.dumps(each) + "\n" for each in rows)
        self.assertIn("are different keys, and legal if they are one; say --values exact", self.judged(text).err)
        self.assertEqual([self.status(text, "--values", way) for way in ("exact", "text", "number")], [1, 0, 0])

    def test_a_list_of_texts_is_the_list_that_was_written(self) -> None:
        for name, form in FORMS.items():
            for value in (["1"], ["a", 1], [["1"], 2]):
                for way in ("exact", "text", "number"):
                    with self.subTest(name, value=value, values=way):
                        text = form(("write", value), ("read", value))
                        self.assertEqual(self.status(text, "--values", way, "--model", "register", name=f"history.{name}"), 0)

    def test_a_cas_of_lists_and_maps(self) -> None:
        for first, second in (([4, 5], [6, 7]), ({"a": 4, "b": [4]}, {"a": 6, "b": [6]}), ([4], [6])):
            rows = [{"process": 0, "type": kind, "f": name, "key": 1, "value": value}
                    for name, value in (("write", first), ("cas", [first, second])) for kind in ("invoke", "ok")]
            for values in ("exact", "text", "number"):
                with self.subTest(first=first, values=values):
                    self.assertEqual(self.status("".join(json.dumps(row) + "\n" for row in rows), "--values", values), 0)

    def test_a_set_of_lists_and_maps(self) -> None:
        def status(added: object, found: object, way: str) -> int:
            rows = [{"client": 0, "op": "add", "key": 1, "value": added, "start": 1, "end": 2},
                    {"client": 0, "op": "read", "key": 1, "result": [found], "start": 3, "end": 4}]
            return self.status("".join(json.dumps(row) + "\n" for row in rows), "--values", way, "--model", "set")

        for value in ([1, 2], ["1", 2.0], {"a": 1}, {"a": "1", "b": [True]}, [[1], {"b": [" x"]}]):
            for way in ("exact", "text", "number"):
                with self.subTest(value=value, values=way):
                    self.assertEqual(status(value, value, way), 0)
        for added, found, right in (([1, 2], ["1", 2], [1, 0, 0]), ([1], [1.0], [1, 1, 0]), ({"a": [1]}, {"a": ["1"]}, [1, 0, 0]), ([1, 2], [2, 1], [1, 1, 1]),
                                    ([1, 2], "[1, 2]", [1, 0, 0]), ([1], 1, [1, 1, 1]), ({"a": 1}, {"a": True}, [1, 1, 0])):
            with self.subTest(added=added, found=found):
                self.assertEqual([status(added, found, way) for way in ("exact", "text", "number")], right)

    def test_groups(self) -> None:
        self.assertEqual(alike({0: "1", 1: '"1"', 2: "1.0", 3: '"a"', 4: '" a"', 5: "2", 6: "true", 7: ":a"}),
                         [["1", '"1"', "1.0", "true"], ['"a"', '" a"']])
        self.assertEqual(Meant("number").alike('"1e400"'), '"1E+400"')
        for same in ("nil", ":key", '"x"'):
            self.assertEqual(Meant("number").alike(same), same)

    def test_what_a_missing_key_answers(self) -> None:
        for absent, answer in (("", ""), ("0", 0), ("None", "None"), ("-1", -1)):
            for name, form in FORMS.items():
                right, lost = form(("read", answer), ("write", 7), ("read", 7)), form(("write", 7), ("read", answer))
                self.assertEqual([self.status(right, *words, name=f"h.{name}") for words in ((), ("--nil-is-absent",))], [3, 1], (absent, name))
                self.assertEqual(self.status(lost, name=f"h.{name}"), 1, (absent, name))
                self.assertEqual(self.status(right, "--absent", absent, name=f"h.{name}"), 0, (absent, name))
                self.assertEqual(self.status(lost, "--absent", absent, name=f"h.{name}"), 1, (absent, name))
        self.assertEqual(self.status(jsonl(("read", ""), ("read", None), ("write", 7), ("read", 7)), "--absent", "", "--absent", "0"), 0)

    def test_an_empty_queue(self) -> None:
        rows = [{"client": 0, "key": "k", "op": "dequeue", "result": "", "start": 0, "end": 1},
                {"client": 0, "key": "k", "op": "enqueue", "value": 7, "start": 2, "end": 3},
                {"client": 0, "key": "k", "op": "dequeue", "result": 7, "start": 4, "end": 5}]
        text = "".join(json.dumps(row) + "\n" for row in rows)
        self.assertEqual((self.status(text), self.status(text, "--absent", "")), (3, 0))
        invented = text.replace('""', "9")
        self.assertEqual((self.status(invented), self.status(invented, "--absent", "9")), (1, 0))

    def test_what_a_key_holds_at_first(self) -> None:
        for initial, answer in (("5", 5), ("x y", "x y"), ('"5"', "5")):
            for name, form in FORMS.items():
                right = form(("read", answer), ("write", 7), ("read", 7))
                self.assertEqual(self.status(right, name=f"h.{name}"), 3, (initial, name))
                self.assertEqual(self.status(right, "--initial", initial, name=f"h.{name}"), 0, (initial, name))
                self.assertEqual(self.status(form(("write", 7), ("read", answer)), "--initial", initial, name=f"h.{name}"), 1, (initial, name))

    def test_the_same_of_jepmons_own_form_and_in_shards(self) -> None:
        own = "\n".join(f"{{:type :{kind}, :process 0, :f :read, :value [3 {part}]}}" for kind, part in (("invoke", "nil"), ("ok", "0"))) + "\n"
        for words in ([], ["--jobs", "1"]):
            self.assertEqual(self.status(own, *words, name="own.edn"), 1)
            for option in ("--absent", "--initial"):
                self.assertEqual(self.status(own, option, "0", *words, name="own.edn"), 0, (option, words))

    def test_csv(self) -> None:
        self.assertEqual(self.status(csv(("read", "0"), ("write", 7), ("read", 7)), "--absent", "0", name="h.csv"), 0)
        self.assertEqual(self.status(csv(("read", "0"), ("write", 7), ("read", 7)), "--initial", "0", name="h.csv"), 0)

    def test_a_value_that_nobody_has_written_is_asked_about(self) -> None:
        for answer, word in (("", "''"), (9, "9"), ("a b", "'a b'")):
            text = jsonl(("read", answer), ("write", 7))
            want = (f"the history is illegal if no key that answered {word} held it, and legal if that is the answer for a missing key; say "
                    f"--absent {word}, --initial {word} if a key held it before the test, or --nil-is-absent if it is neither")
            for words in ((), ("--jobs", "1")):
                self.assertIn(want, self.as_json(text, *words)["reason"])
            self.assertEqual([self.status(text, *words) for words in (("--absent", str(answer)), ("--initial", str(answer)), ("--nil-is-absent",))], [0, 0, 1])
        for text, words in ((jsonl(("write", 7), ("write", 8), ("read", 7)), ()), (jsonl(("read", 9), ("write", 7)), ("--initial", "3")),
                            (jsonl(("write", 7), ("read", 9)), ())):
            self.assertEqual(self.status(text, *words), 1)


if __name__ == "__main__":
    unittest.main()
