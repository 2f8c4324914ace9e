"""Forms of recorded histories: which one it is, and what each becomes."""
from __future__ import annotations

import json
import random
import unittest
from typing import Any, Dict

from jepmon.forms import Refused, detect
from jepmon.forms.files import of_text
from jepmon.forms.own import read
from jepmon.forms.recorded import Options, recorded
from jepmon.history import of_key, read_history
from jepmon.objects.configurations import walk

from .translated import events, made


class Forms(unittest.TestCase):
    def test_by_how_they_begin(self) -> None:
        for text, form in (("", detect.NOTHING), ("; a comment\n\n", detect.NOTHING), ("[]", detect.NOTHING), (" \n[ ]\n", detect.NOTHING),
                           ("{:type :ok}", detect.EDN), ("[{:type :ok}]", detect.EDN), ("#jepsen.history.Op{:type :ok}", detect.EDN),
                           ("({:type :ok})", detect.EDN), ('{"type": "ok"}', detect.JSON), ('[{"type": "ok"}]', detect.JSON),
                           ('\n [ { "a b" : 1 }]', detect.JSON), ('{"type" :ok}', detect.EDN),
                           ("0\t:invoke\t:read\tnil\n", detect.LOG), ("INFO  jepsen.util - 2\t:invoke\t:write\t2\n", detect.LOG),
                           ("client,op,key,call,return\n", detect.CSV), ("client;op;key\r\n0;read;1", detect.CSV)):
            with self.subTest(text=text):
                self.assertEqual(detect.form_of(text), form)

    def test_that_are_none(self) -> None:
        for text in ("hello", "legal\nlegal\n", "key 7 model register\n", "a,b\n1,2\n", "<html>", "%PDF-1.4"):
            with self.subTest(text=text), self.assertRaises(Refused):
                detect.form_of(text)
        for text, reason in (("---\n- op: read\n", "YAML"), ("- op: read\n  key: x\n", "YAML"),
                             ("[2026-05-04T10:00:00.1+00:00] kv.INFO: read\n", "--mapping"), ("[04/May/2026:10:00:00 +0000] read x\n", "--mapping")):
            with self.subTest(text=text), self.assertRaisesRegex(Refused, reason):
                detect.form_of(text)


class Lines(unittest.TestCase):
    def test_of_the_file_where_it_has_no_indices(self) -> None:
        """An event says where it stands: by Jepsen's index, or by the line of a file that has none."""
        rows = '{"client": 4, "op": "put", "value": 1, "call": 3, "return": 5}\n\n{"client": 2, "op": "get", "answer": 1, "call": 4}\n'
        self.assertEqual([line.split(", ")[-1] for line in made(rows).text.splitlines()], [":line 1}", ":line 3}", ":line 1}"])
        edn = "{:type :invoke, :f :write, :value [1 2], :process 0, :index 7}\n"
        self.assertEqual(made(edn).text.split(", ")[-1], ":jepsen-index 7}\n")


class OwnForm(unittest.TestCase):
    WRITE = "{:type :invoke, :process 0, :f :write, :value [7 1]}\n{:type :ok, :process 0, :f :write, :value [7 1]}\n"

    def test_events(self) -> None:
        own = read("; a comment\n" + self.WRITE + "\n#_{:type :info, :process :nemesis, :f :note, :value \"a } b\", :time 5}\n")
        assert own is not None
        self.assertEqual((own.facts.events, list(own.facts.lines), list(own.facts.processes)), (2, [2, 3], [0, 0]))
        self.assertEqual((own.facts.keys[7].names, dict(own.facts.outcomes)), ({"write"}, {"write ok": 1}))

    def test_commands(self) -> None:
        own = read("[:model 7 :register]\n" + self.WRITE + "[:rewind 1]\n[:budget 7 9]\n[:verdict]\n")
        assert own is not None
        self.assertEqual((own.models, own.budgets, own.text), ({7: "register"}, {7: 9}, self.WRITE.splitlines(True)[0]))

    def test_indices_are_those_of_the_events(self) -> None:
        for index, is_own in ((0, True), (1, False)):
            line = f"{{:type :invoke, :process 0, :f :read, :value [7 nil], :index {index}, :time 8}}"
            self.assertEqual(read(line) is not None, is_own)

    def test_what_is_not_a_line_of_it(self) -> None:
        for line in ("#_{", "#_ #_ {} {}", "{:type :invoke}", "{:type :invoke, :process 0, :f :txn, :value [7 nil]}", "[:model 7 :tree]",
                     "{:type :invoke, :process 0, :f :read, :value nil}", "{:type :info, :process :nemesis, :f :start, :value nil} x",
                     "{:type :invoke, :process 0, :f :read, :value [7 nil]} {:type :ok, :process 0, :f :read, :value [7 1]}"):
            with self.subTest(line=line):
                self.assertIsNone(read(line + "\n"))

    def test_answers(self) -> None:
        own = read("".join(f"{{:type :{kind}, :process 0, :f :read, :value [3 {part}]}}\n" for answer in ("nil", "#{}", "#{1 2}", "4")
                           for kind, part in (("invoke", "nil"), ("ok", answer))))
        assert own is not None
        facts = own.facts.keys[3]
        self.assertEqual((facts.reads, facts.reads_of_nil, facts.reads_of_sets), (4, 1, 2))


class Rows(unittest.TestCase):
    def test_events_of_json(self) -> None:
        lines = ('{"process": 0, "type": "invoke", "f": "write", "key": 7, "value": 1}', '{"process":0,"type":"ok","f":"write","key":7,"value":1}')
        want = ["invoke 0 write [7 1]", "ok 0 write [7 1]"]
        self.assertEqual(events("\n".join(lines)), want)
        self.assertEqual(events(f"[{','.join(lines)}]"), want)
        self.assertEqual(events('{"name": "a run", "events": [' + ",".join(lines) + "]}"), want)
        self.assertEqual(events("\n\n".join(lines).replace('"key": 7, "value": 1', '"value": [7, 1]')), want)

    def test_a_completion_may_leave_out_what_its_invocation_has(self) -> None:
        text = '{"client":"b","kind":"call","op":"get","key":3}\n{"client":"b","kind":"return","result":4}\n'
        self.assertEqual(events(text), ["invoke 0 read [3 nil]", "ok 0 read [3 4]"])

    def test_a_cas_of_two_fields(self) -> None:
        text = '{"Process":1,"Type":"invoke","Op":"compare-and-set","Key":1,"Old":2,"New":3}\n{"Process":1,"Type":"fail","Op":"cas","Key":1}\n'
        self.assertEqual(events(text), ["invoke 1 cas [1 [2 3]]", "fail 1 cas [1 [2 3]]"])

    def test_operations_in_the_order_of_their_times(self) -> None:
        text = ('{"client":0,"op":"put","key":1,"value":5,"start":10,"end":40}\n'
                '{"client":1,"op":"get","key":1,"result":5,"start":20,"end":30}\n')
        self.assertEqual(events(text), ["invoke 0 write [1 5]", "invoke 1 read [1 nil]", "ok 1 read [1 5]", "ok 0 write [1 5]"])

    def test_operations_that_touch_are_open_at_once(self) -> None:
        text = '{"client":0,"op":"put","key":1,"value":5,"call":1,"return":2}\n{"client":1,"op":"get","key":1,"ret":5,"call":2,"return":2}\n'
        self.assertEqual(events(text), ["invoke 0 write [1 5]", "invoke 1 read [1 nil]", "ok 0 write [1 5]", "ok 1 read [1 5]"])

    def test_operations_of_one_client_that_touch(self) -> None:
        text = '{"client":0,"op":"put","key":1,"value":5,"call":1,"return":2}\n{"client":0,"op":"put","key":1,"value":6,"call":2,"return":3}\n'
        self.assertEqual(events(text), ["invoke 0 write [1 5]", "invoke 1 write [1 6]", "ok 0 write [1 5]", "ok 1 write [1 6]"])

    def test_what_never_returned_ends_where_its_client_goes_on(self) -> None:
        text = ('{"client":"a","op":"put","key":1,"value":5,"call":1}\n{"client":"a","op":"put","key":1,"value":6,"call":3,"return":4}\n'
                '{"client":"b","op":"put","key":1,"value":7,"call":2}\n')
        self.assertEqual(events(text), ["invoke 0 write [1 5]", "invoke 1 write [1 7]", "info 0 write [1 5]", "invoke 2 write [1 6]",
                                        "ok 2 write [1 6]"])

    def test_what_is_not_certain_is_an_info(self) -> None:
        for field in ('"error": "connection reset"', '"outcome": "timeout"', '"success": false', '"unknown": true', '"result": "timeout"'):
            with self.subTest(field=field):
                got = events('{"client":0,"op":"put","key":1,"value":5,"call":1,"return":2,%s}' % field)
                self.assertEqual(got, ["invoke 0 write [1 5]", "info 0 write [1 5]"])
        for field in ('"outcome": "fail"', '"success": false', '"result": false'):
            with self.subTest(field=field):
                got = events('{"client":0,"op":"cas","key":1,"old":5,"new":6,"call":1,"return":2,%s}' % field)
                self.assertEqual(got, ["invoke 0 cas [1 [5 6]]", "fail 0 cas [1 [5 6]]"])

    def test_porcupines_operations(self) -> None:
        text = ('{"ClientId":0,"Input":{"Op":"put","Key":"x","Value":"a"},"Call":1,"Output":{},"Return":5}\n'
                '{"ClientId":1,"Input":{"Op":"get","Key":"x"},"Call":2,"Output":{"Value":"a"},"Return":9}\n')
        self.assertEqual(events(text), ["invoke 0 write [0 0]", "invoke 1 read [0 nil]", "ok 0 write [0 0]", "ok 1 read [0 0]"])

    def test_dates(self) -> None:
        text = ('{"client":0,"op":"put","key":1,"value":5,"start":"2024-05-01T10:00:00.2Z","end":"2024-05-01 12:00:00,300+02:00"}\n'
                '{"client":1,"op":"get","key":1,"result":5,"start":"2024-05-01T10:00:00.250+0000","end":"2024-05-01T10:00:00.4000001Z"}\n')
        self.assertEqual([line.split(" ")[0:2] for line in events(text)], [["invoke", "0"], ["invoke", "1"], ["ok", "0"], ["ok", "1"]])

    def test_csv(self) -> None:
        text = 'client,op,key,arg,ret,call_ns,return_ns\r\n0,write,"a,b",1,,100,200\r\n1,read,"a,b",,1,210,300\r\n'
        self.assertEqual(events(text), ["invoke 0 write [0 1]", "ok 0 write [0 1]", "invoke 1 read [0 nil]", "ok 1 read [0 1]"])

    def test_numbers_and_numbered_values_are_not_mixed(self) -> None:
        text = "".join('{"process":0,"type":"%s","f":"write","key":1,"value":%s}\n' % (kind, value)
                       for value in ('"x"', "0", '"y"', "1") for kind in ("invoke", "ok"))
        self.assertEqual([line.split(" ")[-1] for line in events(text)[::2]], ["0]", "1]", "2]", "3]"])

    def test_sets(self) -> None:
        text = ('{"process":0,"type":"invoke","f":"add","key":1,"value":3}\n{"process":0,"type":"ok","f":"add","key":1,"value":3}\n'
                '{"process":0,"type":"invoke","f":"read","key":1,"value":null}\n{"process":0,"type":"ok","f":"read","key":1,"value":[3]}\n')
        self.assertEqual(events(text)[-1], "ok 0 read [1 #3]")

    def test_no_keys(self) -> None:
        found = made('{"process":0,"type":"invoke","f":"write","value":3}\n{"process":0,"type":"ok","f":"write","value":3}\n')
        self.assertEqual([guess.option for guess in found.account.guesses], ["--key K"])

    def test_refusals(self) -> None:
        for text, reason in (
            ('{"client":0,"op":"put","key":1,"value":5,"call":3,"return":2}', "line 1: it returns at 2, before its call at 3"),
            ('\n\n{"client":0,"op":"get","key":1,"arg":"x","ret":5,"call":1,"return":2}', 'line 3: a read has the argument "x"'),
            ('{"client":0,"op":"put","key":1,"value":5,"call":1,"return":2,"result":7}', "line 1: a write is answered by 7"),
            ('{"client":0,"op":"put","key":1,"value":5,"call":1,"outcome":"ok"}', "line 1: it is ok, and the time of its return is missing"),
            ('{"client":0,"op":"put","key":1,"value":5,"call":"noon"}', "line 1: \"noon\" is not a time"),
            ('{"client":0,"op":"put","key":1,"value":5,"call":true}', "line 1: true is not a time"),
            ('{"client":0,"op":1,"key":1,"value":5,"call":1}', "line 1: its operation is 1, which says nothing here"),
            ('{"client":0,"op":"put","key":1,"value":5,"call":1}\n{"process":0,"type":"ok","f":"write"}', "line 2: this operation has no time of its call"),
            ('{"process":0,"type":"maybe","f":"write"}', 'line 1: type is "maybe", which is none of invoke, ok, fail, info'),
            ('{"process":[],"type":"ok","f":"write"}', "line 1: its process is []"),
            ('{"process":0,"type":"ok","key":1}', "line 1: this event has no operation"),
            ('{"process":0,"type":"invoke","f":"write","key":1,"value":1}\n{"process":"a","type":"ok","f":"read"}',
             'line 2: its process is "a", and the processes before it are numbers'),
            ('{"process":0,"type":"invoke","f":"push all","key":1}', 'line 1: its operation is "push all"'),
            ('{"process":0,"type":"invoke","f":"txn","value":[]}', "line 1: "),
            ('{"process":0,"type":"invoke","f":"write","key":1', "line 1: the text ends within the object that begins here"),
            ('[{"process":0,"type":"invoke","f":"write","key":1,"value":1}', "line 1: the text ends within the array"),
            ('[{"process":0,"type":"invoke","f":"write","key":1,"value":1}] {}', "line 1: more follows the array"),
            ('{"process":0}\n17', "line 1: this event has no type"),
            ('{"a":1}\n17', "line 2: this is not an object"),
            ('{"process":0,"type":"invoke","f":"write","value":1e}', "line 1: this is not JSON"),
            ('{"a":' + "[" * 100_000, "line 1: "),
            ("client,op,key,call\n0,read,1\n", "line 2: it has 3 cells for 4 columns"),
        ):
            with self.subTest(text=text[:80]):
                with self.assertRaises(Refused) as refused:
                    made(text)
                self.assertTrue(str(refused.exception).startswith(reason), str(refused.exception))

    def test_times_of_two_kinds(self) -> None:
        with self.assertRaisesRegex(Refused, "line 2: .* a time of another kind"):
            made('{"client":0,"op":"put","key":1,"value":5,"call":1}\n{"client":0,"op":"put","key":1,"value":5,"call":"2024-05-01T10:00:00Z"}')


class Etcd(unittest.TestCase):
    def operation(self, asked: str, came: str = "{}", at: int = 0) -> str:
        return '{"ClientId":1,"Input":%s,"Call":%d,"Output":%s,"Return":%d}\n' % (asked, 10 * at, came, 10 * at + 5)

    def put(self, more: str = "") -> str:
        return ('{"Type":"txn","Txn":{"Conditions":null,"OperationsOnSuccess":[{"Type":"put-operation","Put":{"Key":"k","Value":'
                '{"Value":"1","Hash":0}}}]%s}}' % more)

    def test_puts_ranges_and_deletes(self) -> None:
        delete = '{"Type":"txn","Txn":{"OperationsOnSuccess":[{"Type":"delete-operation","Delete":{"Key":"k"}}]}}'
        text = (self.operation(self.put(), at=1) + self.operation('{"Type":"range","Range":{"Start":"k","End":""}}',
                '{"Range":{"KVs":[{"Key":"k","Value":{"Value":"1","Hash":0}}],"Count":1}}', 2)
                + self.operation('{"Type":"defragment"}', at=3) + self.operation(delete, at=4)
                + self.operation('{"Type":"range","Range":{"Key":"k"}}', '{"Range":{"KVs":null,"Count":0}}', 5))
        self.assertEqual([line.split(" ", 1)[1] for line in events(text)[2::2]],
                         ["0 write [0 0]", "0 read [0 nil]", "0 write [0 1]", "0 read [0 nil]"])

    def test_a_lost_response(self) -> None:
        self.assertEqual(events(self.operation(self.put(), '{"Error":"timeout"}'))[-1], "info 0 write [0 0]")

    def test_refusals(self) -> None:
        for asked, what in (('{"Type":"range","Range":{"Key":"k","Revision":3}}', "a range of an old revision"),
                            ('{"Type":"range","Range":{"Start":"k","End":"m"}}', "a range over several keys"),
                            ('{"Type":"leaseGrant"}', "a lease"),
                            (self.put().replace("null", '[{"Key":"k"}]'), "a transaction with conditions")):
            with self.subTest(asked=asked), self.assertRaisesRegex(Refused, f"line 1: {what} of etcd"):
                made(self.operation(asked))


class Logs(unittest.TestCase):
    def test_lines(self) -> None:
        text = ("2024-05-01 10:00:00,101{GMT}\tINFO\t[jepsen worker 0] jepsen.util: 0\t:invoke\t:write\t[7 1]\n"
                "2024-05-01 10:00:00,102{GMT}\tINFO\t[jepsen test runner] jepsen.core: Running test\n"
                "2024-05-01 10:00:00,104{GMT}\tINFO\t[jepsen worker 0] jepsen.util: 0\t:info\t:write\t[7 1]\t:timeout \"x\"\n")
        found = made(text)
        self.assertEqual(found.text.splitlines(), ["{:type :invoke, :process 0, :f :write, :value [7 1], :line 1}",
                                                   "{:type :info, :process 0, :f :write, :value [7 1], :line 3}"])
        self.assertEqual((list(found.lines), found.account.lines, sum(found.account.skipped.values())), ([1, 3], 3, 1))

    def test_a_last_line_that_may_be_cut_off(self) -> None:
        with self.assertRaisesRegex(Refused, "the last line has no line feed: was the file cut off?"):
            made("0\t:invoke\t:read\tnil\n0\t:ok\t:read\t12")


class LegalStaysLegal(unittest.TestCase):
    """Operations that took place in one order, each between its call and its return, told with a coarse clock, are legal."""

    def test_registers(self) -> None:
        for seed in range(100):
            with self.subTest(seed=seed):
                found = recorded(of_text(operations(random.Random(seed))), Options())
                walked = walk(of_key(read_history(found.text), 0), "cas-register", 1 << 16)
                self.assertEqual(walked.status, "alive")


def operations(draw: random.Random) -> str:
    """Operations of a register by some clients, as lines of JSON in any order."""
    clock, held, lines = 0, None, []  # type: int, Optional[int], List[str]
    free = {client: 0 for client in range(4)}
    coarse = draw.choice((1, 2, 4))
    for value in range(16):
        clock += draw.randrange(4)
        client = min(free, key=lambda each: free[each])
        call, ends = min(clock, max(free[client], clock - draw.randrange(6))), clock + draw.randrange(6)
        row: Dict[str, Any] = {"client": client, "key": 0, "call": call // coarse * coarse, "return": ends // coarse * coarse}
        kind = draw.choice(("get", "put", "cas"))
        if kind == "put":
            row.update(op="put", value=value)
            held = value
        elif kind == "cas" and held is not None:
            row.update(op="cas", old=held, new=value)
            held = value
        else:
            row.update(op="get", result=held)
        if kind != "get" and draw.randrange(8) == 0:
            del row["return"]
        free[client] = ends + 1
        lines.append(json.dumps(row))
    draw.shuffle(lines)
    return "\n".join(lines)


if __name__ == "__main__":
    unittest.main()
