"""The fields of rows: each is accounted for, one of two that differ is refused, and a flag is true or false in any spelling."""
from __future__ import annotations

import unittest
from typing import List

from jepmon.forms import Refused, mapping

from .translated import Case, events, lines, made, mapped, operation

OTHER = operation(client=1, value=2, start=3, end=4)


class EachField(Case):
    def test_one_that_is_not_known_and_varies_is_refused(self) -> None:
        text = lines(operation(path="a", key=...), {**operation(path="b", key=...), **{"start": 3, "end": 4}})
        self.refused(text, 'path: "a", "b" (line 1). Say what each one is, for example by --map path=key, or that it is nothing, by --ignore path.')
        self.assertEqual(events(text, mapping=mapping.Mapping().with_field("path=key"))[0], "invoke 0 write [0 1]")
        self.assertEqual(events(text, mapping=mapping.Mapping().with_ignored("path"))[0], "invoke 0 write [0 1]")

    def test_one_that_some_rows_lack_is_refused(self) -> None:
        self.refused(lines(operation(), {**OTHER, "rolled_back": True}), "rolled_back: true (line 2)")

    def test_one_that_says_nothing_is_told(self) -> None:
        found = made(lines({**operation(), "node": "n1", "color": "red"}, {**OTHER, "node": "n2", "color": "red"}))
        self.assertEqual(found.account.fields, ["node (2)", "color (2)"])

    def test_two_with_one_meaning(self) -> None:
        self.refused(lines(operation(topic="a")), 'key is "x" and topic is "a", and each may be the key: say --ignore topic')
        self.assertEqual(events(lines(operation(topic="x"))), events(lines(operation())))
        self.assertEqual(events(lines(operation(topic=None))), events(lines(operation())))
        self.assertEqual(events(lines(operation(pid=77)), mapping=mapping.Mapping().with_field("client=client"))[0], "invoke 0 write [0 1]")

    def test_runs(self) -> None:
        for name in ("run", "run_id", "test"):
            text = lines(operation(**{name: 1}), {**OTHER, name: 2})
            self.refused(text, f"{name}: 1, 2 (line 1)")
            self.refused(text, f"If {name} tells runs apart, judge each by itself")
            self.assertEqual(len(events(text, mapping=mapping.Mapping().with_ignored(name))), 4)
            self.assertEqual(made(lines(operation(**{name: 1}), {**OTHER, name: 1})).account.fields, [f"{name} (2)"])

    def test_a_session_beside_a_client(self) -> None:
        self.refused(lines(operation(session="a")), 'client is 0 and session is "a", and each may be the client: say --ignore session')

    def test_a_key_of_several_fields(self) -> None:
        text = lines(operation(table="t"), {**OTHER, "table": "u"}, operation(op="read", value=..., result=1, table="t", start=5, end=6))
        self.refused(text, "If table is a part of the key, say --map table=key --map key=key")
        both = mapping.Mapping().with_field("table=key").with_field("key=key")
        self.assertEqual([event.split(" ", 3)[3] for event in events(text, mapping=both)[::2]], ["[0 1]", "[1 2]", "[0 nil]"])
        self.refused(text + lines(operation(start=7, end=8)), "line 4: its key is key, and that of rows before it is key and table", mapping=both)
        self.assertEqual(made(text, mapping=mapping.Mapping().with_field("table=key")).account.fields, ["key (3)"])
        self.refused(lines(operation(topic="a")), "--map key=key --map topic=key")
        other = lines(operation(thing="x", key=..., topic="a"), {**OTHER, "thing": "x", "key": "y"}, operation(thing="x", key=..., topic="b", start=5, end=6))
        one = mapping.Mapping().with_field("thing=key")
        self.refused(other, 'topic: "a", "b" (line 1)', mapping=one)
        self.assertEqual(len(events(other, mapping=one.with_ignored("topic").with_ignored("key"))), 6)
        some = lines(operation(key=..., path="a"), operation(key=..., topic="a", start=3, end=4))
        either = mapping.Mapping().with_field("path=key").with_field("topic=key")
        self.assertEqual(events(some, mapping=either)[2], "invoke 0 write [0 1]")

    def test_a_member_and_a_column_twice(self) -> None:
        self.refused('{"op": "write", "op": "read"}', 'line 1: an object has the member "op" twice')
        self.refused("op,key,Key\n1,2,3\n", "line 1: two columns are called 'key'")

    def test_refusals_list_what_was_seen_and_what_is_allowed(self) -> None:
        self.refused(lines({"who": 1, "what": "x"}), "its fields are who, what. Say what they are, for example by --map who=key, or in a --mapping FILE. "
                     "Names are client, type, f, key")


class Flags(Case):
    def test_in_any_spelling(self) -> None:
        for yes in (True, "True", "TRUE", "true", 1, "1", 1.0, "yes"):
            self.assertEqual(self.outcome(operation(ok=yes)), "ok", yes)
            self.assertEqual(self.outcome(operation(timeout=yes)), "info", yes)
            self.assertEqual(self.outcome(operation(failed=yes)), "fail", yes)
        for no in (False, "False", "FALSE", "false", 0, "0", 0.0, "no"):
            self.assertEqual(self.outcome(operation(success=no)), "info", no)
            self.assertEqual(self.outcome(operation(timeout=no)), "ok", no)
            self.assertEqual(self.outcome(operation(op="cas", value=[1, 2], acked=no)), "fail", no)

    def test_others_are_refused(self) -> None:
        self.refused(lines(operation(ok="maybe")), 'line 1: ok is "maybe", which is neither true nor false')
        self.refused(lines(operation(timeout=5000)), "say --ignore timeout if it does not tell how the operation ended")


class Outcomes(Case):
    def test_a_type_of_an_operation(self) -> None:
        for kind in ("ok", "fail", "info"):
            self.assertEqual(self.outcome(operation(type=kind)), kind)
        self.refused(lines(operation(), operation(type="invoke")), "as in a row of an event, and the rows before it are operations with times")

    def test_errors_that_are_none(self) -> None:
        for error in (None, "", "<nil>", "nil", "None", "OK", "NaN", False, 0, float("nan")):
            self.assertEqual(self.outcome(operation(err=error)), "ok", error)
        for error in ("timeout", {"code": 5}, 7, {}):
            self.assertEqual(self.outcome(operation(err=error)), "info", error)

    def test_contradictions_are_refused(self) -> None:
        for fields in ({"status": "ok", "err": "timeout"}, {"ok": True, "failed": True}, {"ok": False, "status": "ok"},
                       {"ok": True, "timeout": True}, {"status": "ok", "state": "failed"}):
            self.refused(lines(operation(**fields)), "did it take place?")
        self.assertEqual(self.outcome(operation(status="fail", timeout=True)), "info")  # it failed, and is said to be open
        self.assertEqual(self.outcome(operation(status="fail", err="not found")), "fail")

    def test_what_is_not_understood_is_never_ok(self) -> None:
        self.refused(lines(operation(status="partially")), 'status is "partially", which is not an outcome')
        self.refused(lines(operation(code=7)), "code is 7, which is not an outcome")
        self.assertEqual(self.outcome(operation(status="partially"), **mapped(outcomes={"partially": "info"})), "info")

    def test_statuses_of_http(self) -> None:
        for status, outcome in ((200, "ok"), ("204", "ok"), (503, "info"), (404, "info")):
            self.assertEqual(self.outcome(operation(code=status)), outcome)
        self.assertIn('a mapping file with "outcomes"', self.guessed(lines(operation(code=200))))
        self.assertEqual(self.outcome(operation(code=409), **mapped(outcomes={"409": "fail"})), "fail")

    def test_an_answer_may_say_that_it_did_not_take_place(self) -> None:
        started = lines({"process": 0, "type": "invoke", "f": "cas", "key": 1, "value": [1, 2]})
        for answer, outcome in ((False, "fail"), (0, "fail"), ("false", "fail"), ("timeout", "info"), (True, "ok"), (1, "ok"), ("OK", "ok")):
            end = lines({"process": 0, "type": "ok", "f": "cas", "key": 1, "result": answer})
            self.assertEqual(events(started + end)[-1].split()[0], outcome, answer)
            self.assertEqual(self.outcome(operation(op="cas", value=[1, 2], result=answer)), outcome, answer)
        self.refused(lines(operation(op="acquire", value=..., result={"token": 33})), 'a acquire is answered by {"token" 33}: did it take place?')


class Answers(Case):
    def read(self, **fields: object) -> str:
        return events(lines(operation(op="read", value=..., **fields)))[-1]

    def test_an_object_is_a_value(self) -> None:
        text = lines(operation(op="enqueue", value={"job": 1}), operation(op="dequeue", value=..., result={"job": 1}, start=3, end=4))
        self.assertEqual(events(text)[-1], "ok 0 dequeue [0 0]")

    def test_an_object_with_the_answer(self) -> None:
        self.assertEqual(self.read(output={"value": 5, "ok": True}), "ok 0 read [0 5]")
        self.assertEqual(self.read(output={"ok": False}), "fail 0 read [0 nil]")
        self.refused(lines(operation(op="read", value=..., result={"value": 5, "owner": 3})), "is it the answer, or is a member of it? say "
                     "--map result=answer, or --ignore result.owner")

    def test_what_was_not_found_is_missing(self) -> None:
        self.assertEqual(self.read(result=0, found=False), "ok 0 read [0 nil]")
        self.assertEqual(self.read(result=0, found=True), "ok 0 read [0 0]")

    def test_an_answer_in_a_field_that_is_not_known(self) -> None:
        rows = [operation(), operation(op="read", value=..., start=3, end=4, data=7)]
        self.refused(lines(*rows), "data: 7 (line 2)")


class Operations(Case):
    def test_push_and_pop_with_a_stated_model_alone(self) -> None:
        text = lines(operation(op="push"), operation(op="pop", start=3, end=4))
        self.refused(text, "line 1: push is an operation of a queue or of a stack: say --model fifo-queue")
        self.assertEqual([line.split()[2] for line in events(text, model="fifo-queue")[::2]], ["enqueue", "dequeue"])

    def test_a_type_and_an_operation_in_one_word(self) -> None:
        rows = [{"worker": "w", "event": "acquire_start", "lock": 1}, {"worker": "w", "event": "acquire_ok", "lock": 1}]
        self.assertEqual(events(lines(*rows)), ["invoke 0 acquire [1 nil]", "ok 0 acquire [1 nil]"])

    def test_numbers_by_a_mapping(self) -> None:
        self.refused(lines(operation(op=1)), "its operation is 1, which says nothing here")
        self.assertEqual(events(lines(operation(op=1)), **mapped(operations={"1": "write"}))[0], "invoke 0 write [0 1]")

    def test_of_other_objects_are_refused_by_name(self) -> None:
        self.refused(lines(operation(op="incr", value=..., result=1)), "no object of jepmon has :incr")


class Decimals(Case):
    def test_beyond_a_double(self) -> None:
        """Each is itself, however it is spelled; and times are as near as a double is."""
        def parts(*numbers: str) -> List[str]:
            rows = [lines(operation(value=0, start=place, end=place)).replace('"value": 0', f'"value": {number}') for place, number in enumerate(numbers)]
            return [event.rsplit(" ", 1)[1] for event in events("".join(rows))[::2]]
        for numbers, want in ((("9007199254740993.0", "9007199254740992.0", "9007199254740993.00"), "0 1 0"), (("1e400", "1e500", "10e399"), "0 1 0"),
                              (("0.1", "0.10000000000000000001", "1e-1"), "0 1 0"), (("1.50", "1.5", "15e-1"), "0 0 0"),
                              (("1e99999999999999999999", "1e400", "1.0"), "0 1 2")):
            self.assertEqual([part.rstrip("]") for part in parts(*numbers)], want.split(), numbers)
        text = lines(operation()).replace('"start": 1', '"start": 0.12345678901234567891').replace('"client": 0', '"client": "a"')
        self.assertEqual(len(events(text)), 2)

    def test_in_cells(self) -> None:
        text = "op,key,value,start,end\n" + "".join(f"write,x,{number},{place},{place}\n" for place, number in
                                                   enumerate(("9007199254740993.0", "9007199254740992.0", "9007199254740993.00")))
        self.assertEqual([event.split("[")[1] for event in events(text)[::2]], ["0 0]", "0 1]", "0 0]"])


class Cells(Case):
    def test_lists_in_quotes(self) -> None:
        """As logfmt has them: the two of a cas, and the members that a read found, as JSON and as Go print them."""
        log = "time={} msg={} process=1 f={} key=0 value={}\n"
        def found(name: str, value: str) -> str:
            return events(log.format(1, "invoke", name, value) + log.format(2, "ok", name, value), mapping=mapping.Mapping().with_field("msg=type"))[-1]
        for spelled in ('"[2, 4]"', '"[2 4]"', "[2,4]"):
            self.assertEqual(found("cas", spelled), "ok 1 cas [0 [2 4]]")
        for spelled in ('"[2, 4"', "2", '"2 4"', '"[2, 4, 6]"', "[2]"):
            with self.assertRaisesRegex(Refused, "line 1: the value of this cas is .*, not a pair of the old and the new value"):
                found("cas", spelled)
        adds = "".join(log.format(2 * place + side, kind, "add", f"v{place}") for place in (0, 1) for side, kind in enumerate(("invoke", "ok")))
        for spelled in (r'"[\"v0\", \"v1\"]"', '"[v0 v1]"'):
            read = log.format(8, "invoke", "read", "").replace(" value=", "") + log.format(9, "ok", "read", spelled)
            self.assertEqual(events(adds + read, mapping=mapping.Mapping().with_field("msg=type"))[-1], "ok 1 read [0 #0 1]")

    def test_texts_as_json_has_them(self) -> None:
        pattern = r"(?P<client>\d) (?P<type>\w+) (?P<op>\w+) (?P<value>.+)"
        text = '0 invoke add "\\u00e9\\"1"\n0 ok add "\\u00e9\\"1"\n0 invoke read null\n0 ok read ["\u00e9\\"1"]\n'
        self.assertEqual(events(text, **mapped(line=pattern))[-1], "ok 0 read [0 #0]")
        self.refused(text.replace('["\u00e9', '[{"a": 1, "a": 2}, "'), 'line 4: an object has the member "a" twice', **mapped(line=pattern))
        ones = '0 invoke write 1\n0 ok write 1\n0 invoke read null\n0 ok read "1"\n'
        self.assertEqual(events(ones, **mapped(line=pattern))[-1], "ok 0 read [0 1]")

    def test_numbers_of_many_digits_are_texts(self) -> None:
        self.assertEqual(len(events(f"op,key,value,start,end\nwrite,x,{'1' * 5000},1,2\n")), 2)

    def test_blanks_in_quotes_belong_to_the_text(self) -> None:
        text = 'op,key,value,start,end\nwrite,x," a",1,2\nwrite,x,a,3,4\nread,x," a",5,6\n'
        self.assertEqual([line.split("[")[1] for line in events(text)[1::2]], ["0 0]", "0 1]", "0 0]"])

    def test_a_last_line_that_may_be_cut_off(self) -> None:
        self.refused("op,key,start,end,value\nwrite,x,1,2,10\nread,x,3,4,1", "line 3: the last line has no line feed")
        self.assertEqual(len(events('op,key,start,end,value\nwrite,x,1,2,"a"')), 2)

    def test_of_what_python_prints(self) -> None:
        self.refused("{'op': 'read'}", "printed by Python's repr")


if __name__ == "__main__":
    unittest.main()
