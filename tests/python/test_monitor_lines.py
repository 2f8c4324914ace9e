"""Lines of several threads that are sent together: who sends them, and keys that are dropped among them."""
from __future__ import annotations

import io
import subprocess
import threading
import time
import unittest
from typing import Callable, List, Optional

from jepmon import Illegal, Monitor, Unknown
from jepmon.live.lines import Line, LineQueue
from tests.python.live_runs import case_of, fault_of, fault_of_long
from tests.python.monitored import Monitored

PATIENCE = 120.0  # seconds until a thread that hangs is a failed test


def until(holds: Callable[[], bool]) -> None:
    end = time.monotonic() + PATIENCE
    while not holds():
        if time.monotonic() > end:
            raise AssertionError("it did not come to be")
        time.sleep(0.002)


class Queue(unittest.TestCase):
    """Without a program: an answer that is held back while others queue their lines."""

    def setUp(self) -> None:
        self.lock = threading.Lock()
        self.queue = LineQueue(self.lock)
        self.batches: List[List[str]] = []
        self.gate = threading.Event()
        self.fault: Optional[BaseException] = None

    def answer(self, lines: List[Line]) -> None:
        self.batches.append([line.text for line in lines])
        self.lock.release()
        try:
            assert self.gate.wait(PATIENCE)
            if self.fault is not None:
                fault, self.fault = self.fault, None
                raise fault
        finally:
            self.lock.acquire()

    def ask(self, text: str) -> None:
        with self.lock:
            self.queue.ask(Line(text), self.answer)

    def in_order(self, texts: str) -> List[threading.Thread]:
        """Threads that ask, the first of them alone, and the others while it waits for its answer."""
        threads = []
        for place, text in enumerate(texts):
            threads.append(threading.Thread(target=self.ask, args=(text,), daemon=True))
            threads[-1].start()
            until(lambda place=place: len(self.batches) == 1 and len(self.queue.lines) == place)  # type: ignore[misc]
        return threads

    def join(self, threads: List[threading.Thread]) -> None:
        for thread in threads:
            thread.join(PATIENCE)
            self.assertFalse(thread.is_alive(), "a thread waits for ever")

    def test_what_was_put_goes_with_the_next(self) -> None:
        self.gate.set()
        with self.lock:
            self.queue.put(Line("i"))
        self.assertEqual(self.batches, [])
        self.ask("o")
        self.assertEqual(self.batches, [["i", "o"]])

    def test_others_queue_while_one_waits(self) -> None:
        threads = self.in_order("abcd")
        self.gate.set()
        self.join(threads)
        self.assertEqual(self.batches, [["a"], ["b", "c", "d"]])

    def test_the_next_one_leads_where_the_first_is_broken_off(self) -> None:
        self.fault = KeyboardInterrupt()
        hook, threading.excepthook = threading.excepthook, lambda args: None
        self.addCleanup(setattr, threading, "excepthook", hook)
        threads = self.in_order("abc")
        self.gate.set()
        self.join(threads)
        self.assertEqual(self.batches, [["a"], ["b", "c"]])
        self.ask("d")
        self.assertEqual(self.batches[-1], ["d"])

    def test_one_that_leaves_lets_the_others_go_on(self) -> None:
        """Ctrl-C where it waits, before it leads and as it was to."""
        threads = self.in_order("abc")
        with self.lock:
            self.queue._leave(self.queue.lines[0])
        self.gate.set()
        self.join([threads[0], threads[2]])
        self.assertEqual(self.batches, [["a"], ["b", "c"]], "its line is told all the same")
        with self.lock:
            line = Line("d")
            self.queue.lines.append(line)
            self.queue._is_led = line._leads = True
            self.queue._leave(line)
        self.ask("e")
        self.assertEqual(self.batches[-1], ["d", "e"])


class Together(Monitored):
    """Two exchanges: lines that come while the first one waits go with the second."""

    def hold(self, monitor: Monitor, lines: int) -> None:
        """Holds back the next exchange until this number of lines wait behind it."""
        telling = monitor._telling
        replies = telling._exchange.replies

        def held(texts: List[str], timeout: Optional[float] = None) -> List[str]:
            telling._exchange.replies = replies  # type: ignore[method-assign]
            until(lambda: len(telling._queue.lines) >= lines)
            return replies(texts, timeout)

        telling._exchange.replies = held  # type: ignore[method-assign]

    def judged_again(self, log: io.StringIO, budget: int) -> List[str]:
        ran = subprocess.run([self.program, "script", "--concurrency", "64", "--budget", str(budget)], input=log.getvalue().encode(),
                             stdout=subprocess.PIPE)
        return ran.stdout.decode().splitlines()

    def test_a_key_that_is_dropped_among_others(self) -> None:
        """The ok over the budget is taken back with all lines behind it, and lines of other keys are sent again as they were."""
        log = io.StringIO()
        with Monitor(self.program, budget=3, by_ends=True, unknown="drop", log=log, out=self.room) as monitor:
            for key in (0, 1, 2):
                monitor.begin(key)
            first, second, third = monitor.write(0, 1).__enter__(), monitor.write(0, 2).__enter__(), monitor.write(1, 7).__enter__()
            self.hold(monitor, 3)
            ends = [threading.Thread(target=op.__exit__, args=(None, None, None)) for op in (monitor.write(2, 5).__enter__(), first)]
            ends[0].start()
            until(lambda: monitor._telling._queue._is_led)
            ends[1].start()
            until(lambda: len(monitor._telling._queue.lines) == 1)
            ends += [threading.Thread(target=op.__exit__, args=(None, None, None)) for op in (second, third)]
            for end in ends[2:]:
                end.start()
            for end in ends:
                end.join(PATIENCE)
            with monitor.write(2, 6):
                pass
            with monitor.read(1) as op:
                op.value = 7
        self.assertEqual(list(monitor.dropped), [0])
        self.assertEqual(monitor.counts, {"write": {"ok": 3, "info": 2}, "read": {"ok": 1}})
        replies = self.judged_again(log, 3)
        self.assertEqual(replies[-1], "legal")
        assert monitor.folder is not None
        self.assertEqual(self.verdict_by(monitor.folder), monitor.close())
        self.assertEqual(monitor.close(), monitor.dropped[0].reply)
        history = (monitor.folder / "history.edn").read_text()
        self.assertEqual(history.count("\n{"), monitor.length)

    def test_illegal_behind_unknown(self) -> None:
        """Lines that are sent together have one verdict, which is that of a check of all of them."""
        with self.assertRaises(Illegal) as caught:
            with Monitor(self.program, budget=3, by_ends=True, out=self.room) as monitor:
                for key in (0, 1, 2):
                    monitor.begin(key)
                first, _ = monitor.write(0, 1).__enter__(), monitor.write(0, 2).__enter__()
                read = monitor.read(1).__enter__()
                read.value = 9
                self.hold(monitor, 2)
                raised: List[BaseException] = []

                def end(op: object) -> None:
                    try:
                        op.__exit__(None, None, None)  # type: ignore[attr-defined]
                    except (Illegal, Unknown) as fault:
                        raised.append(fault)

                ends = [threading.Thread(target=end, args=(op,)) for op in (monitor.write(2, 5).__enter__(), first, read)]
                for thread in ends:
                    thread.start()
                    until(lambda: monitor._telling._queue._is_led)
                    time.sleep(0.01)
                for thread in ends:
                    thread.join(PATIENCE)
        self.assertEqual(caught.exception.key, 1)
        self.assertTrue(all(isinstance(fault, Illegal) for fault in raised), raised)
        assert monitor.folder is not None
        self.assertEqual(self.verdict_by(monitor.folder), caught.exception.reply)

    def test_many_threads(self) -> None:
        """The folder and the log give the verdict of the run when they are judged again; tests/fuzz_live.py does more of them."""
        for seed in range(12):
            self.assertIsNone(fault_of(case_of(seed), is_dropped=seed % 3 > 0), seed)
            self.assertIsNone(fault_of_long(case_of(seed)), seed)

    def test_lines_of_many_threads_go_together(self) -> None:
        sent: List[int] = []
        with Monitor(self.program) as monitor:
            replies = monitor._telling._exchange.replies

            def counted(lines: List[str], timeout: Optional[float] = None) -> List[str]:
                sent.append(len(lines))
                time.sleep(0.002)  # so long that others have lines
                return replies(lines, timeout)

            monitor._telling._exchange.replies = counted  # type: ignore[method-assign]

            def client(number: int) -> None:
                for value in range(20):
                    with monitor.write(number, value):
                        pass

            monitor.run(client, 50)
        self.assertEqual(sum(sent), monitor.length + 1, "and the last question for the verdict")
        self.assertGreater(max(sent), 4)


if __name__ == "__main__":
    unittest.main()
