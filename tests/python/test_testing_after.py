"""After a finding: the bad key read again, lost messages and members, crashes, and what is kept of the nodes."""
from __future__ import annotations

import argparse
import pathlib
import subprocess
import tempfile
import unittest
from typing import Any, Dict, List, Sequence, Tuple

from jepmon.history import Event
from jepmon.history.fault_notes import OVER, Fault
from jepmon.history.fault_times import since, until
from jepmon.history.kinds import ABSENT
from jepmon.testing import Client, Server, ServerError
from jepmon.testing.after import (Reading, listed, lost_members, lost_messages, one_round, others_that_differ, verdict_on,
                                  verdict_on_queue)
from jepmon.testing.crashes import LogWatch, account, finding
from jepmon.testing.errors import Died
from jepmon.testing.failures import failure_of, verdict_on_failure
from jepmon.testing.losses import Acknowledged, known_from, lines, many
from jepmon.testing.messages import Missing
from jepmon.testing.node import Node
from jepmon.testing.servers.postgresql import PostgreSQL
from tests.python.test_testing_run import Runs

SECOND = 1_000_000_000
KILL = Fault("n1 is down, by kill -9 [kill n1, process]", 0, 2 * SECOND, 9, 3 * SECOND)
SLOW = Fault("all links of n2 are slow [slow n2, links, delay=0.05; while kill n1]", 0, int(2.5 * SECOND), None, None)

# Servers with one fault each, on the template's own.
SERVES = '''
class Mine(MyServer):
    def command(self, node):
        words = super().command(node)
        code = """%s"""
        return [words[0], "-c", "import runpy, sys, threading, time, os\\n" + code
                + "\\nsys.argv[0] = FILE\\nrunpy.run_path(FILE, run_name='__main__')".replace("FILE", repr(words[1])), *words[2:]]
'''
PANICS = SERVES % """
def die():
    time.sleep(3); print('panic: assertion failed at raft.c:77', flush=True); os.abort()
threading.Thread(target=die, daemon=True).start()"""
SAYS_SO = (SERVES % """
def die():
    time.sleep(2); print('panic: assertion failed at raft.c:77', flush=True)
threading.Thread(target=die, daemon=True).start()""").replace("(MyServer):\n", "(MyServer):\n    crashes = ('^panic: ',)\n")
IS_STALE = '''
class Client(MyClient):
    reads = 0
    def read(self, key):
        Client.reads += 1
        return 7777777 if Client.reads == 60 else super().read(key)
class Mine(MyServer):
    objects = {"register": Client}
    def client(self, number):
        return Client(self.nodes[0].at)
'''


def event(index: int, kind: str, name: str, value: Any, seconds: float, process: int = 0) -> Event:
    return Event(index, kind, process, name, 0, value, index + 1, "", {"time": round(seconds * SECOND)})


class Answers(Client):
    def __init__(self, answer: int) -> None:
        self.answer = answer

    def read(self, key: int) -> int:
        return self.answer


class Times(unittest.TestCase):
    def test_how_long_after_which_fault(self) -> None:
        for at, said in ((1.0, ""), (2.07, '0.07 s after "n1 is down, by kill -9" began'),
                         (2.6, '0.10 s after "all links of n2 are slow" began, while "n1 is down, by kill -9" held')):
            self.assertEqual(since([KILL, SLOW], round(at * SECOND)), said)
        self.assertEqual(since([KILL, Fault(OVER, 0, 3 * SECOND, 0, 3 * SECOND)], round(3.5 * SECOND)),
                         '1.50 s after "n1 is down, by kill -9" began, 0.50 s after it ended')
        self.assertEqual(since([Fault("kill n1", 3, SECOND, 3, SECOND)], 2 * SECOND), '1.00 s after "kill n1"')

    def test_how_long_before_which_fault(self) -> None:
        self.assertEqual(until([SLOW, KILL], round(1.9 * SECOND)), '0.10 s before "n1 is down, by kill -9" began')
        later = KILL._replace(begin_time=3 * SECOND, end_time=4 * SECOND)
        self.assertEqual(until([SLOW, later], 2 * SECOND),
                         '0.50 s before "all links of n2 are slow" began and 1.00 s before "n1 is down, by kill -9" began')
        self.assertEqual(until([KILL], 5 * SECOND), "")


class Verdicts(unittest.TestCase):
    WRITES = [event(0, "invoke", "write", 5, 1.0), event(1, "ok", "write", 5, 1.9)]

    def on(self, answer: Any, events: Sequence[Event] = WRITES, **nodes: Any) -> str:
        readings = {name: value if isinstance(value, Reading) else Reading(value) for name, value in nodes.items()}
        fatal = event(9, "ok", "read", answer, 3.5)
        return verdict_on(fatal, readings, Acknowledged.of(events, 9, [KILL]), known_from([*events, fatal], 9, answer))

    def test_of_a_register(self) -> None:
        self.assertEqual(self.on(ABSENT, n1=None, n2=None), "A write is LOST: the wrong answer stays. The write of 5 was acknowledged at "
                         '1.90 s, 0.10 s before "n1 is down, by kill -9" began.')
        stale = "The read was STALE: the nodes hold 5, which had been acknowledged before the read began."
        self.assertEqual(self.on(4, n1=5, n2=5), stale)
        self.assertEqual(self.on(4, n1=6, n2=6), "LOST or STALE, nobody knows which: a write of 6, not acknowledged when the read began, took "
                         "place since.")
        self.assertEqual(self.on(4, n1=4, n2=4), "The wrong answer stays.")  # of a write that was recorded as failed
        self.assertEqual(self.on(4, n1=5, n2=4), "Nodes DIVERGED: they still hold different values.")
        self.assertEqual(self.on(4, n1=Reading(None, "no answer (TimeoutError)"), n2=5), stale)
        self.assertIn("nobody knows", self.on(4, n1=Reading(None, "no answer (TimeoutError)")))

    def test_nodes_that_no_client_asks(self) -> None:
        readings = {"n1": Reading(5), "n2": Reading(4), "n3": Reading(None, "no answer (TimeoutError)")}
        self.assertEqual(others_that_differ(readings, {"n1": Reading(5)}), "Another value is still at n2: DIVERGED from the nodes that clients ask.")
        self.assertEqual(others_that_differ({"n1": Reading(5), "n2": Reading(5)}, {"n1": Reading(5)}), "")
        self.assertEqual(others_that_differ(readings, readings), "")

    def test_who_reads_at_a_node(self) -> None:
        """Clients ask n1; the server gives a reader of n2, and none of n3."""
        nodes = [Node(number, pathlib.Path(), pathlib.Path(), {}, None) for number in range(3)]  # type: ignore[arg-type]
        kind = type("Kind", (Server,), {"client": lambda self, number: Answers(5), "node_of": lambda self, number: self.nodes[0],
                                        "reader": lambda self, node: Answers(4) if node.name == "n2" else None})
        cluster: Any = argparse.Namespace(nodes=nodes, server=kind(nodes, "register", ""))
        self.assertEqual(one_round(cluster, 7), {"n1": Reading(5), "n2": Reading(4)})

    def test_of_an_answer_that_is_the_last_write(self) -> None:
        """Two writes overlap, and the one that is acknowledged first is the last. A stale read between makes its value impossible."""
        events = [event(0, "invoke", "write", 60, 0.1), event(1, "invoke", "write", 62, 0.1, 1), event(2, "ok", "write", 62, 0.2, 1),
                  event(3, "ok", "write", 60, 0.3), event(4, "invoke", "read", None, 0.4), event(5, "ok", "read", 60, 0.5)]
        self.assertEqual(self.on(62, events, n1=62), "An EARLIER answer was wrong: 62 stays, and no write that began after it was there has "
                         "been acknowledged.")
        later = [event(6, "invoke", "write", 70, 0.6), event(7, "ok", "write", 70, 0.7)]
        self.assertEqual(self.on(62, [*events, *later], n1=62), "A write is LOST: the wrong answer stays. The write of 70 was acknowledged at "
                         '0.70 s, 1.30 s before "n1 is down, by kill -9" began.')

    def test_of_a_failed_write_that_was_read(self) -> None:
        """The write of 7 fails after a read of 7, or before it; 5 was there before. Then the nodes hold 5, nothing, 7 or 9."""
        write = [event(2, "invoke", "write", 7, 2.0, 1), event(5, "fail", "write", 7, 2.3, 1)]
        read = [event(3, "invoke", "read", None, 2.1, 2), event(4, "ok", "read", 7, 2.2, 2)]
        cas = [event(2, "invoke", "cas", (5, 7), 2.0, 1), event(5, "fail", "cas", (5, 7), 2.3, 1)]
        for fatal, events in ((write[1], [*write, *read]), (event(6, "ok", "read", 7, 2.4, 3), write), (cas[1], [*cas, *read])):
            failure = failure_of(fatal, sorted([*self.WRITES, *events, fatal], key=lambda one: one.index), [])
            assert failure is not None
            self.assertIn(failure.what, ("write of 7", "cas of 7"))
            for held, said in ((5, f"The read of 7 was DIRTY: the {failure.what} failed, and its value is gone."),
                               (None, "its value is gone"), (7, f"The {failure.what} was recorded as failed, and its value stays. So it took place"),
                               (9, f"The read of 7 was DIRTY, or the {failure.what} took place")):
                self.assertIn(said, verdict_on_failure(failure, held))
            self.assertIn("DIRTY", verdict_on(fatal, {"n1": Reading(5)}, Acknowledged([]), -1, failure))
        self.assertIsNone(failure_of(read[1], [*self.WRITES, *read], []))

    def test_of_a_failed_add_that_was_read(self) -> None:
        add = [event(2, "invoke", "add", 7, 2.0), event(5, "fail", "add", 7, 2.3)]
        failure = failure_of(add[1], add, [])
        assert failure is not None
        self.assertIn("its value is gone", verdict_on_failure(failure, frozenset({5})))
        self.assertIn("its value stays", verdict_on_failure(failure, frozenset({5, 7})))

    def test_of_a_set(self) -> None:
        adds = [event(index, "ok", "add", index, 1.9 + index / 10) for index in range(3)]
        acknowledged = Acknowledged.of(adds, 9, [KILL])
        fatal = event(9, "ok", "read", frozenset({1}), 3.5)
        readings = {"n1": Reading(frozenset({1}))}
        self.assertEqual([one.value for one in lost_members(readings, acknowledged)], [0, 2])
        self.assertEqual(verdict_on(fatal, readings, acknowledged, -1), "Members are LOST, 2 in all: acknowledged 0 (at 1.90 s), 2 (at 2.10 s); the "
                         'first one 0.10 s before "n1 is down, by kill -9" began, the last one 0.10 s after "n1 is down, by kill -9" began.')
        self.assertIn("STALE", verdict_on(fatal, {"n1": Reading(frozenset({0, 1, 2}))}, acknowledged, -1))

    def test_of_a_queue(self) -> None:
        events = [event(index, "ok", "enqueue", index, 1.9) for index in range(4)]
        events += [event(4, "ok", "dequeue", 3, 2.0), event(5, "info", "dequeue", None, 2.1)]
        lost = lost_messages(events, [1], Acknowledged.of(events, 9, [KILL]))
        self.assertEqual([one.value for one in lost], [0, 2])
        self.assertRegex(verdict_on_queue(8, events, [1], lost), "^Once all faults were ended, queue 8 was drained: 1 messages came. Messages "
                         "are LOST, 2 in all, 1 of which dequeues that timed out may have taken: acknowledged 0 ")
        self.assertIn("none is lost", verdict_on_queue(8, events, [0, 1, 2], []))

    def test_many_are_cut(self) -> None:
        events = [event(index, "ok", "add", index, 1.0) for index in range(40)]
        self.assertIn(" and 28 more", many(Acknowledged.of(events, 99, []).values))

    def test_nodes_that_answer_alike(self) -> None:
        self.assertEqual(listed({"n1": Reading(None), "n2": Reading(3), "n3": Reading(None)}), "ABSENT at n1, n3; 3 at n2")


class Messages(unittest.TestCase):
    def test_each_is_listed_with_its_time_and_the_fault_that_followed(self) -> None:
        with tempfile.TemporaryDirectory() as room:
            part = pathlib.Path(room, "part-0001")
            part.mkdir()
            (part / "history.edn").write_text("".join(line + "\n" for line in (
                "{:type :invoke, :process 0, :f :enqueue, :value [3 163], :time 1000000000}",
                "{:type :ok, :process 0, :f :enqueue, :value [3 163], :time 24750000000}",
                '#_{:type :info, :process :nemesis, :f :begin-fault, :value "n1 is down, by kill -9", :time 24820000000}',
                '#_{:type :info, :process :nemesis, :f :end-fault, :value "n1 is down, by kill -9", :time 25820000000}')))
            found = list(lines(pathlib.Path(room), 1, [Missing("jobs", "part-0001", 3, [163], 0), Missing("other", "part-0009", 0, [1], 1)]))
        self.assertEqual(found, ["1 messages were acknowledged, and never came. This was counted, and is not proved.",
                                 "queue other: 1 of the 1 that are listed may have been taken by dequeues that timed out",
                                 'queue jobs: 163 was acknowledged at 24.75 s, 0.07 s before "n1 is down, by kill -9" began'])


class Crashes(unittest.TestCase):
    def node(self, room: str) -> Node:
        return Node(0, pathlib.Path(room), pathlib.Path(room, "n1.log"), {}, None)  # type: ignore[arg-type]

    def test_a_line_of_the_log(self) -> None:
        with tempfile.TemporaryDirectory() as room:
            node = self.node(room)
            watch = LogWatch([node], ["^panic: "])
            watch.look()  # there is no log yet
            node.log.write_text("no panic: here\npanic: half")
            watch.look()  # a line that is not whole
            with open(node.log, "a") as log:
                log.write(" of it\n")
            with self.assertRaises(Died) as died:
                watch.look()
            self.assertEqual(finding(died.exception), "crashed n1: it says in its log: panic: half of it")
            watch.look()  # each line once
            LogWatch([node], []).look()

    def test_a_pattern_that_is_none(self) -> None:
        with self.assertRaisesRegex(ServerError, r"'\(' is not a regular expression"):
            LogWatch([], ["("])

    def test_whom_to_blame(self) -> None:
        with tempfile.TemporaryDirectory() as room:
            node = self.node(room)
            for log, how, said in (("ready\npanic: at raft.c:77\nbye\n", "has died by itself, by signal 6",
                                    "crashed n1: it has died by itself, by signal 6; its log says: panic: at raft.c:77"),
                                   ("", "has died by itself, with status 0", "crashed n1: it has died by itself, with status 0"),
                                   ("write: No space left on device\n", "has died by itself, with status 1", None),
                                   ("error of before\n--- started again\nready\n", "has died by itself, with status 1",
                                    "crashed n1: it has died by itself, with status 1; its log says: ready"),
                                   ("error of before\nSegmentation fault\n" + "r15 0x0\n" * 40 + "#1 sig_fatal_cb\n", "has died by itself, by signal 6",
                                    "crashed n1: it has died by itself, by signal 6; its log says: Segmentation fault"),
                                   ("ready\n", "has died by itself, by signal 9", None)):
                node.log.write_text(log)
                self.assertEqual(finding(Died("n1", how, node.log)), said)


    def test_when_and_after_which_faults(self) -> None:
        log = "ready\n--- started again\none\npanic: no head\ntwo\n"
        faults = [Fault("n1 is without power [tear n1, process]", 0, 1_000_000_000, 0, 3_000_000_000),
                  Fault("all links of n2 are slow [slow n2, links]", 0, 3_100_000_000, 0, None)]
        own = "The last fault of n1: 2.50 s after \"n1 is without power\" began, 0.50 s after it ended"
        with tempfile.TemporaryDirectory() as room:
            path = pathlib.Path(room, "n1.log")
            path.write_text(log)
            for how, held, said in (("has died by itself, with status 1", faults, f". This was found at 3.50 s, 0.40 s after \"all links of n2 are slow\" "
                                     f"began. {own}."),
                                    ("has died by itself, with status 1", faults[:1], ". This was found at 3.50 s, 2.50 s after \"n1 is without power\" "
                                     "began, 0.50 s after it ended."),
                                    ("says in its log: panic: no head", [], ". This was found at 3.50 s, before any fault.")):
                died = Died("n1", how, path)
                found = account(died, [*held, Fault(died.note, 0, 3_500_000_000, 0, 3_500_000_000)])
                self.assertEqual(found[0], f"n1 {how}{said}")
                self.assertEqual(found[1:], [f"Its log, n1.log, {'says around that line' if 'says' in how else 'ends'}:", "    one", "    panic: no head",
                                             "    two"])
            self.assertEqual(account(Died("n1", "has died", pathlib.Path(room, "none")), []), ["n1 has died."])
            path.write_text("Segmentation fault\n" + "r15 0x0\n" * 40)
            self.assertEqual(account(Died("n1", "has died", path), [])[1], 'Its log, n1.log, says "Segmentation fault", and ends:')

    def test_what_postgresql_says(self) -> None:
        """Its first process goes on, and starts the one that has crashed again."""
        with tempfile.TemporaryDirectory() as room:
            node = self.node(room)
            for line, is_one in (("LOG:  checkpointer process (PID 26905) was terminated by signal 11: Segmentation fault", True),
                                 ("LOG:  server process (PID 7) was terminated by signal 6: Aborted", True),
                                 ("PANIC:  could not locate a valid checkpoint record", True),
                                 ("ERROR:  invalid page in block 3 of relation base/5/16384", True),
                                 ("LOG:  database system was not properly shut down; automatic recovery in progress", False),
                                 ("FATAL:  terminating connection due to administrator command", False)):
                with self.subTest(line):
                    node.log.write_text(f"2026-11-30 22:08:33.023 UTC [1] {line}\n")
                    watch = LogWatch([node], PostgreSQL.crashes)
                    if is_one:
                        self.assertRaises(Died, watch.look)
                    else:
                        watch.look()


class AsAWhole(Runs):
    def finding(self, server: str, *words: str) -> "Tuple[subprocess.CompletedProcess[str], pathlib.Path]":
        ran = self.ran(server, *words)
        self.assertEqual(ran.returncode, 1, ran.stdout + ran.stderr)
        folder = (self.room / "runs" / "latest").resolve()
        self.assertEqual(self.verdict_file(), ran.stdout.splitlines()[-1])
        again = subprocess.run([folder / "judge-again"], stdout=subprocess.PIPE, stderr=subprocess.DEVNULL, universal_newlines=True,
                               env=self.environment())
        self.assertEqual((again.returncode, again.stdout.splitlines()[-1]), (1, ran.stdout.splitlines()[-1]))
        self.assertTrue((folder / "run.html").exists())
        return ran, folder

    def test_a_server_that_panics(self) -> None:
        ran, folder = self.finding(self.mine(PANICS), "--time", "60", "--nemesis", "none")
        self.assertEqual(ran.stdout.splitlines()[-1],
                         "crashed n1: it has died by itself, by signal 6; its log says: panic: assertion failed at raft.c:77")
        self.assertRegex(ran.stderr, r"\An1 has died by itself, by signal 6[.] This was found at [0-9.]+ s, before any fault[.]\n"
                                     r"Its log, n1.log, ends:\n(    .*\n)*    panic: assertion failed at raft.c:77\n")
        self.assertEqual((folder / "crash.txt").read_text(), ran.stderr)
        self.assertIn("<h2>Crash</h2>", (folder / "run.html").read_text())
        self.assertTrue((folder / "n1.data" / "journal").exists())

    def test_a_server_that_says_so(self) -> None:
        ran, _ = self.finding(self.mine(SAYS_SO), "--time", "60", "--nemesis", "none", "--keep-nodes", "never")
        self.assertEqual(ran.stdout.splitlines()[-1], "crashed n1: it says in its log: panic: assertion failed at raft.c:77")
        self.assertFalse((self.room / "runs" / "latest" / "n1.data").exists())

    def test_a_write_that_is_lost(self) -> None:
        from jepmon.testing import template

        ran, folder = self.finding(str(template.__file__), "--time", "60", "--inject-bug", "forgetful")
        self.assertRegex(" ".join(ran.stderr.split()), "A write is LOST: the wrong answer stays[.]|LOST or STALE")  # as a write was open then
        self.assertRegex(" ".join(ran.stderr.split()), r'Event [0-9]+ came [0-9.]+ s after "n1 is down, by kill -9" began')
        self.assertIn("LOST", next(folder.glob("part-*/page.html")).read_text())
        self.assertTrue((folder / "n1.data").is_dir())

    def test_a_read_that_is_stale(self) -> None:
        ran, _ = self.finding(self.mine(IS_STALE), "--time", "60", "--nemesis", "none")
        self.assertIn("STALE", " ".join(ran.stderr.split()))

    def test_what_is_kept_of_a_legal_run(self) -> None:
        kept: Dict[str, List[str]] = {}
        choices: Tuple[List[str], ...] = ([], ["--keep-nodes", "always"])
        for words in choices:
            ran = self.ran(self.mine("class Mine(MyServer):\n    pass\n"), "--time", "2", "--min-ok", "1", "--nemesis", "none", *words)
            self.assertEqual(ran.returncode, 0, ran.stdout + ran.stderr)
            kept[" ".join(words)] = [path.name for path in (self.room / "runs" / "latest").glob("n1.data/*")]
        self.assertEqual(kept, {"": [], "--keep-nodes always": ["journal"]})
