"""Members of etcd that leave the group and join it, as a group tells of them of which one member lags."""
from __future__ import annotations

import contextlib
import unittest
from types import SimpleNamespace
from typing import Any, Dict, List, Tuple

from jepmon.testing.servers.etcd import NoAnswer
from jepmon.testing.servers.etcd_members import GONE, join, remove


class Group:
    """An etcd for these strikes: n1 to n3 are members, and n1, which is asked first, may know an old list."""

    def __init__(self) -> None:
        self.nodes = [SimpleNamespace(name=f"n{number}", pid=number, inside=contextlib.nullcontext) for number in (1, 2, 3)]
        self.numbers: Dict[str, str] = {}
        self.removed: "set[str]" = set()
        self.existing: Dict[str, List[str]] = {}
        self.members = {f"peer of {node.name}": str(node.pid) for node in self.nodes}
        self.lagging: Dict[str, str] = {}  # what n1 knows, where it lags
        self.asked: List[Tuple[str, str]] = []
        self.is_late = False  # a change takes place, and the answer does not come

    def peer(self, node: Any) -> str:
        return f"peer of {node.name}"

    def ask(self, node: Any, path: str, timeout: float, **body: Any) -> Any:
        what = path.rpartition("/")[2]
        self.asked.append((node.name, what))
        known = self.lagging if node.name == "n1" and self.lagging and what == "list" else self.members
        if what == "remove":
            if body["ID"] not in known.values():
                raise NoAnswer(f"status 404: {GONE}")
            self.members = {peer: number for peer, number in known.items() if number != body["ID"]}
        if what == "add":
            if body["peerURLs"][0] in known:
                raise NoAnswer("status 412: Peer URLs already exists")
            self.members = known = {**known, body["peerURLs"][0]: str(len(self.asked) + 100)}
        if self.is_late and what != "list":
            raise TimeoutError("timed out")
        return {"members": [{"peerURLs": [peer], "ID": number} for peer, number in known.items()]}


class Members(unittest.TestCase):
    def setUp(self) -> None:
        self.group: Any = Group()
        self.node = self.group.nodes[1]

    def changes(self) -> List[str]:
        return [what for _, what in self.group.asked if what != "list"]

    def test_one_leaves_and_joins(self) -> None:
        remove(self.group, self.node)
        self.assertNotIn("peer of n2", self.group.members)
        join(self.group, self.node)
        self.assertEqual(self.group.existing["n2"], ["peer of n1", "peer of n3", "peer of n2"])
        self.assertEqual(self.group.numbers["n2"], self.group.members["peer of n2"])

    def test_the_answer_tells_the_members_where_another_one_lags(self) -> None:
        self.group.lagging = dict(self.group.members)
        remove(self.group, self.node)
        join(self.group, self.node)  # n1 lists the old number of n2 still
        self.assertEqual(self.group.existing["n2"], ["peer of n1", "peer of n3", "peer of n2"])
        self.assertNotEqual(self.group.numbers["n2"], "2")

    def test_a_change_whose_answer_did_not_come(self) -> None:
        self.group.is_late = True
        remove(self.group, self.node)  # the next one that is asked knows that it took place
        with self.assertRaisesRegex(NoAnswer, "already exists"):
            join(self.group, self.node)
        join(self.group, self.node)
        self.assertEqual(self.changes(), ["remove", "remove", "add", "add"])
        self.assertIn("peer of n2", self.group.existing["n2"])

    def test_one_more_member(self) -> None:
        spare: Any = SimpleNamespace(name="n4", pid=None, inside=contextlib.nullcontext)
        join(self.group, spare)
        join(self.group, spare)  # before it is removed
        self.assertEqual(self.changes(), ["add"])
        remove(self.group, spare)
        join(self.group, spare)
        self.assertEqual(self.changes(), ["add", "remove", "add"])


if __name__ == "__main__":
    unittest.main()
