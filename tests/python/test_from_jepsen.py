"""Turning Jepsen's histories, by calls of the module; the command itself is tried by tests/from_jepsen.py."""
import gzip
import io
import itertools
import random
import tracemalloc
import unittest
import unittest.mock
from typing import Dict, List, Optional, Sequence, Tuple

from jepmon import from_jepsen, history
from jepmon.forms import decoding

EVENT = "{{:type :{}, :process {}, :f :{}, :value {}}}\n"
REGISTER = EVENT.format("invoke", 0, "write", '[:x "a"]') + EVENT.format("ok", 0, "write", '[:x "a"]')


class Calls(unittest.TestCase):
    def test_what_is_told(self) -> None:
        turned = from_jepsen.turn(REGISTER)
        self.assertEqual((turned.concurrency, turned.model, turned.models), (1, "register", {0: ["register", "cas-register"]}))
        self.assertEqual((turned.names.key(0), turned.names.value(0), turned.names.value(5)), (":x", '"a"', "5"))
        self.assertEqual(turned.notes[0], "events: 2")
        self.assertEqual(turned.advice, ["judge it by: jepmon check FILE --concurrency 1 --model register"])
        self.assertEqual([event.value for event in history.read_history(turned.text())], [0, 0])

    def test_sources(self) -> None:
        """A text, bytes, an open file, one that is compressed, in pieces of whatever size."""
        text = REGISTER * 50
        want = from_jepsen.turn(text).text()
        raw = text.encode()
        for given in (raw, io.BytesIO(raw), gzip.compress(raw), io.BytesIO(gzip.compress(raw))):
            self.assertEqual(from_jepsen.turn(given).text(), want)
        for size in (1, 7, 64, 1000):
            with unittest.mock.patch.object(decoding, "PIECE", size):
                self.assertEqual(from_jepsen.turn(io.BytesIO(raw)).text(), want)

    def test_keys_of_several_kinds(self) -> None:
        turned = from_jepsen.turn(REGISTER + EVENT.format("invoke", 0, "acquire", "[:y nil]"))
        self.assertEqual((turned.model, turned.models[1]), (None, ["mutex"]))

    def test_refusals(self) -> None:
        for given, want in (
            (b"", "there is no event in it: the file is empty"),
            (b"\xff\xfe{", "it is UTF-16: iconv -f UTF-16 -t UTF-8 FILE | jepmon-judge"),
            (REGISTER.encode() + b"\xe9", f"it is not text: byte {len(REGISTER)} is not UTF-8"),
            (gzip.compress(REGISTER.encode())[:-9], "it is compressed by gzip, and cut off"),
            (EVENT.format("invoke", 0, "txn", "[]").encode(),
             "line 1: :txn is a transaction over several keys, which jepmon does not judge (Elle does)"),
        ):
            with self.subTest(given=given), self.assertRaises(from_jepsen.Refusal) as caught:
                from_jepsen.turn(given)
            self.assertEqual(str(caught.exception), want)

    def test_memory(self) -> None:
        """For a long file only its events are held; the rest is let go as it is read."""
        line = "{:type :invoke, :process %d, :f :write, :value [0 1], :error \"" + "x" * 4000 + "\"}\n"
        text = b"".join((line % process).encode() for process in range(3000))
        tracemalloc.start()
        try:
            with self.assertRaises(from_jepsen.Refusal):  # too many at once, which is known at the end
                from_jepsen.turn(io.BytesIO(text))
            most = tracemalloc.get_traced_memory()[1]
        finally:
            tracemalloc.stop()
        self.assertLess(most, len(text) / 3)


Interval = Tuple[float, float, str, int]  # of an operation: when it was invoked and completed, its name and value


def is_linearizable(operations: Sequence[Interval]) -> bool:
    """Whether some order of the operations is one of a queue without an order: each dequeue finds its value in the queue. In the order each
    operation comes before those that were invoked after it completed."""
    seen = set()

    def goes_on(left: frozenset, queue: Tuple[int, ...]) -> bool:
        if not left:
            return True
        if (left, queue) in seen:
            return False
        seen.add((left, queue))
        first = min(operations[at][1] for at in left)
        for at in left:
            began, _, name, value = operations[at]
            if began > first:
                continue
            if name == "enqueue" and goes_on(left - {at}, tuple(sorted(queue + (value,)))):
                return True
            if name == "dequeue" and value in queue:
                rest = list(queue)
                rest.remove(value)
                if goes_on(left - {at}, tuple(rest)):
                    return True
        return False

    return goes_on(frozenset(range(len(operations))), ())


class Drains(unittest.TestCase):
    """A drain as dequeues one after the other, just before its :ok, says the same as dequeues that are open all its time."""

    def test_both_ways_agree(self) -> None:
        chance = random.Random(7)
        count = {True: 0, False: 0}
        for _ in range(600):
            text, wide = self.history(chance)
            turned = from_jepsen.turn(text)
            narrow = intervals(history.operations(history.read_history(turned.text()), turned.concurrency))
            self.assertEqual(is_linearizable(narrow), is_linearizable(wide), text)
            count[is_linearizable(wide)] += 1
        self.assertGreater(min(count.values()), 80, count)

    def history(self, chance: random.Random) -> Tuple[str, List[Interval]]:
        """A history of a queue by three clients, and its operations. Most histories are of a queue that is right. A drain's dequeues are
        open from the drain's invocation to its completion."""
        lines: List[str] = []
        operations: List[Interval] = []
        opened: Dict[int, Tuple[int, str, Optional[int]]] = {}
        queue: List[int] = []
        values = itertools.count(1)
        for at in range(chance.randrange(6, 16)):
            process = chance.randrange(3)
            if process not in opened:
                name = chance.choice(["enqueue", "enqueue", "dequeue", "drain"])
                value = next(values) if name == "enqueue" else None
                opened[process] = at, name, value
                lines.append(EVENT.format("invoke", process, name, f"[0 {value or 'nil'}]"))
                if value is not None and chance.random() < 0.5:
                    queue.append(value)
                continue
            began, name, value = opened.pop(process)
            if name == "enqueue":
                assert value is not None
                if value not in queue and chance.random() < 0.9:
                    queue.append(value)
                taken, shown = [value], str(value)
            else:
                taken = [queue.pop(chance.randrange(len(queue))) for _ in range(len(queue) if name == "drain" else 1) if queue]
                if chance.random() < 0.15:
                    taken.append(chance.randrange(1, 6))
                shown = f"[{' '.join(map(str, taken))}]" if name == "drain" else str(taken[0]) if taken else "nil"
                taken = taken if name == "drain" else taken[:1]
            lines.append(EVENT.format("ok", process, name, f"[0 {shown}]"))
            operations += [(began, at, "enqueue" if name == "enqueue" else "dequeue", one) for one in taken]
        operations += [(began, float("inf"), name, value) for began, name, value in opened.values()
                       if value is not None and any(value == taken for _, _, kind, taken in operations if kind == "dequeue")]
        return "".join(lines) + EVENT.format("invoke", 9, "write", "[1 1]"), operations


def intervals(operations: Sequence[history.Operation]) -> List[Interval]:
    """Those of key 0 that took place, and enqueues that are open and whose value came out."""
    of_key = [operation for operation in operations if operation.invocation.key == 0]
    taken = {operation.completion.value for operation in of_key
             if operation.outcome == "ok" and operation.invocation.name == "dequeue" and operation.completion is not None}
    made: List[Interval] = []
    for invocation, completion, _ in of_key:
        if completion is not None and completion.kind == "ok":
            made.append((invocation.index, completion.index, invocation.name, int(str(completion.value))))
        elif completion is None and invocation.name == "enqueue" and invocation.value in taken:
            made.append((invocation.index, float("inf"), invocation.name, int(str(invocation.value))))
    return made


if __name__ == "__main__":
    unittest.main()
