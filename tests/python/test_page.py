"""The page as a text: well formed, escaped, complete, small. tests/browser.py tests its work in a browser."""
from __future__ import annotations

import base64
import hashlib
import html.parser
import json
import re
import time
import unittest
from typing import Any, Dict, List, Optional, Tuple

from . import recorded
from .made_pages import HOSTILE, MADE, big, given, register, unknown

from jepmon import history, page
from jepmon.objects import configurations as walk
from jepmon.page import choice
from jepmon.page.labels import printable

VOID = {"meta", "link", "input", "br"}


class Reader(html.parser.HTMLParser):
    """Reads a page: its elements, whether they close as they open, the text within some."""

    def __init__(self, text: str) -> None:
        super().__init__(convert_charrefs=True)
        self.open: List[str] = []
        self.faults: List[str] = []
        self.found: List[Tuple[str, Dict[str, Optional[str]]]] = []
        self.texts: Dict[str, str] = {}
        self.feed(text)
        self.close()
        self.faults += [f"{name} is not closed" for name in self.open]

    def handle_starttag(self, tag: str, attrs: List[Tuple[str, Optional[str]]]) -> None:
        self.found.append((tag, dict(attrs)))
        if tag not in VOID:
            self.open.append(tag)

    def handle_endtag(self, tag: str) -> None:
        if not self.open or self.open.pop() != tag:
            self.faults.append(f"/{tag} at {self.getpos()}")

    def handle_data(self, data: str) -> None:
        if self.open:
            self.texts[self.open[-1]] = self.texts.get(self.open[-1], "") + data

    def of(self, tag: str) -> List[Dict[str, Optional[str]]]:
        return [attributes for name, attributes in self.found if name == tag]


def data_of(text: str) -> Dict[str, Any]:
    found = re.search(r'<script type="application/json" id="data">(.*?)</script>', text, re.S)
    assert found is not None
    result: Dict[str, Any] = json.loads(found.group(1))
    return result


class Pages(unittest.TestCase):
    def test_each_is_well_formed(self) -> None:
        for name, make in MADE.items():
            with self.subTest(name):
                text = page.render(make())
                read = Reader(text)
                self.assertEqual(read.faults, [])
                ids = [attributes["id"] for _, attributes in read.found if "id" in attributes]
                self.assertEqual(len(ids), len(set(ids)))
                self.assertEqual(text.encode("utf-8").decode("utf-8"), text)
                self.assertFalse("$" in re.sub(r"<(script|style)>.*?</\1>|<pre.*?</pre>", "", text, flags=re.S))

    def test_it_takes_nothing_from_elsewhere(self) -> None:
        read = Reader(page.render(register()))
        sources = [value for _, attributes in read.found for name, value in attributes.items()
                   if name in ("src", "href", "action", "data")]
        self.assertEqual(sources, ["data:,"])
        self.assertEqual([attributes for tag, attributes in read.found if any(name.startswith("on") for name in attributes)], [])
        self.assertEqual([attributes for _, attributes in read.found if "style" in attributes], [])

    def test_the_policy_allows_its_own_style_and_script_alone(self) -> None:
        text = page.render(register())
        policy = next(each["content"] for each in Reader(text).of("meta") if each.get("http-equiv") == "Content-Security-Policy")
        self.assertIn("default-src 'none'", policy or "")
        for tag, source in (("style", "style-src"), ("script", "script-src")):
            inside = re.findall(rf"<{tag}>(.*?)</{tag}>", text, re.S)
            self.assertEqual(len(inside), 1)
            digest = base64.b64encode(hashlib.sha256(inside[0].encode()).digest()).decode()
            self.assertIn(f"{source} 'sha256-{digest}'", policy or "")

    def test_texts_are_escaped(self) -> None:
        text = page.render(MADE["hostile"]())
        read = Reader(text)
        self.assertEqual([attributes for tag, attributes in read.found if tag == "b" and attributes], [])
        self.assertEqual(len(read.of("script")), 2)
        self.assertEqual([c for c in "\0\x1b\u2028" if c in text], [])
        for tag in ("title", "p", "li", "dd", "pre"):
            self.assertIn(printable(HOSTILE)[:60], read.texts[tag])
        labels = [row[4] for row in data_of(text)["operations"]]
        self.assertTrue(any(printable(HOSTILE)[:40] in label for label in labels))
        self.assertTrue(all("stands for" in row[10] for row in data_of(text)["operations"] if printable(HOSTILE)[:40] in row[4]))

    def test_a_lone_surrogate_is_written_as_its_escape(self) -> None:
        text = page.render(register()._replace(headline="\ud83d", file="\udcff", sentences=("\ud800",)))
        self.assertTrue("\\ud83d" in text.encode("utf-8").decode())

    def test_it_says_what_is_proved(self) -> None:
        for name, make in MADE.items():
            with self.subTest(name):
                self.assertEqual(html.unescape(page.render(make())).count("The verdict is jepmon's, and is proved. "), 1)

    def test_it_says_the_verdict_and_the_facts(self) -> None:
        read = Reader(page.render(register()))
        self.assertEqual(read.texts["title"], "illegal key 7 index 56: register.edn")
        self.assertIn("The read answered 21", read.texts["p"])
        self.assertIn("A legal answer: 26, 27 or 29.", read.texts["li"])
        for part in ("register.edn", "7", "4", "4,096 outcomes", "80"):
            self.assertIn(part, read.texts["dd"])

    def test_what_stands_around_an_event_is_not_parted_from_it(self) -> None:
        text = page.render(register()._replace(sentences=("It was written (events 4 to 5), and read at event 6.",)))
        self.assertIn('<span class="whole">(<button type="button" class="seek" data-event="4">events 4 to 5</button>),</span> and read at '
                      '<span class="whole"><button type="button" class="seek" data-event="6">event 6</button>.</span>', text)

    def test_without_a_cause_it_says_what_the_verdict_says(self) -> None:
        bare = register()._replace(headline="", sentences=())
        self.assertTrue("the ok of read \u2192 21 by process 2" in page.render(bare))
        self.assertTrue("more than 4,096 outcomes were possible" in page.render(unknown()))

    def test_no_ends_where_the_walk_and_the_verdict_differ(self) -> None:
        for name, words in (("disagrees", "does not agree with the verdict: by it this key is illegal at event 56"),
                            ("gave_up", "gave up at event 20")):
            with self.subTest(name):
                text = page.render(MADE[name]())
                self.assertTrue(words in text)
                self.assertFalse("data-end" in text.split("<script")[0])
                found = data_of(text)
                self.assertEqual((found["ends"], found["growth"], [view["held"] for view in found["views"]]), ([], [], [[]]))

    def test_an_unknown_that_the_walk_finds_legal_is_said(self) -> None:
        found = unknown()._replace(walked=page.Walked("alive", 599))
        self.assertTrue("by it this key is legal" in page.render(found))

    def test_outcomes_that_are_too_many_to_follow(self) -> None:
        """A :fail is fatal while many operations are open: its outcomes are not bounded by the budget."""
        lines = ["{:type :invoke, :process %d, :f :write, :value [7 %d]}" % (process, process) for process in range(12)]
        lines += ["{:type :invoke, :process 12, :f :read, :value [7 nil]}", "{:type :ok, :process 12, :f :read, :value [7 0]}"]
        events = history.read_history("\n".join([*lines, "{:type :fail, :process 0, :f :write, :value [7 0]}"]))
        begun = walk.walk(events[:1] + events[12:], "register", 4096)
        self.assertEqual(page.walked(begun, {}).ended, "dead")
        begun.walker.work = -1
        begun.walker._fresh = list(begun.walker.live.values())
        self.assertEqual(page.walked(begun, {}), page.Walked("gave-up", 14))

    def test_an_empty_history(self) -> None:
        nothing = page.PageInput("legal", 7, [])
        self.assertEqual(Reader(page.render(nothing)).faults, [])
        self.assertEqual(page.bars(nothing), "")


class Data(unittest.TestCase):
    def test_events_and_operations(self) -> None:
        given_page = register()
        found = data_of(page.render(given_page))
        self.assertEqual([row[0] for row in found["events"]], [event.index for event in given_page.events])
        self.assertEqual([row[1] for row in found["events"]], [event.line for event in given_page.events])
        self.assertEqual(found["events"][found["fatal"]][0], 56)
        self.assertEqual({row[2] for row in found["events"]}, {0})  # each is put together by the script

    def test_a_text_of_another_form_is_told_as_it_stands(self) -> None:
        text = "{:process 0, :type :invoke, :f :write, :value [7 1]}\n{:type :ok :process 0 :f :write :value [7 1] :time 12}\n"
        found = data_of(page.render(given(text, "register", 1)))
        self.assertEqual(found["events"], [[0, 1, "{:process 0, :type :invoke, :f :write, :value [7 1]}"],
                                           [1, 2, "{:type :ok :process 0 :f :write :value [7 1] :time 12}", "12"]])

    def test_orders_lead_to_their_ends(self) -> None:
        given_page = register()
        found = data_of(page.render(given_page))
        assert given_page.walked is not None
        for end, (last, left_out) in zip(given_page.walked.ends, found["ends"]):
            order: List[int] = []
            while last >= 0:
                order.append(found["steps"][0][last])
                last = found["steps"][1][last]
            indices = [found["events"][found["operations"][number][5]][0] for number in reversed(order)]
            self.assertEqual(indices, list(end.order)[left_out:])

    def test_each_step_is_told_once(self) -> None:
        found = data_of(page.render(register()))
        steps = list(zip(*found["steps"]))
        self.assertEqual(len(steps), len(set(steps)))

    def test_a_long_text_is_cut(self) -> None:
        reads = "{:type :ok, :process 0, :f :read, :value [7 #{" + " ".join(map(str, range(5000))) + "}]}"
        text = "{:type :invoke, :process 0, :f :read, :value [7 nil]}\n" + reads
        found = data_of(page.render(given(text, "set", 1)))
        self.assertLess(len(found["events"][1][2]), 4100)
        self.assertIn(f"({len(reads)} characters)", found["events"][1][2])
        self.assertLess(len(found["operations"][0][4]), 61)

    def test_sizes(self) -> None:
        """A page of 50, 500 and 5,000 operations: its bytes, and the seconds to make it."""
        for count, most in ((50, 90_000), (500, 180_000), (5000, 1_200_000)):
            with self.subTest(count):
                made = big(count)
                begin = time.process_time()
                text = page.render(made)
                took = time.process_time() - begin
                self.assertLess(len(text.encode()), most)
                self.assertLess(took, 5)

    def test_more_events_than_a_page_has(self) -> None:
        made = big(500)
        made = made._replace(smallest=[made.events[0].index, made.events[1].index, *made.smallest])
        chosen = choice.choose(made.events, made.concurrency, made.walked.at if made.walked else None, frozenset({0}), 200)
        self.assertEqual(len(chosen.events), 200)
        self.assertEqual((chosen.before + 200 + chosen.after, chosen.every), (1000, 500))
        self.assertEqual([each.invocation.index for each in chosen.away], [0])
        self.assertIn(811, [event.index for event in chosen.events])
        first = chosen.events[0].index
        self.assertTrue(all(each.completion is None or each.completion.index >= first for each in chosen.operations))

    def test_the_part_may_have_other_sets(self) -> None:
        text = "\n".join("{:type :%s, :process %d, :f :%s, :value [7 %s]}" % row for row in (
            ("invoke", 0, "add", "1"), ("ok", 0, "add", "1"), ("invoke", 0, "add", "2"), ("ok", 0, "add", "2"),
            ("invoke", 1, "read", "nil"), ("ok", 1, "read", "#{1}")))
        whole = given(text, "set", 2)
        part = [event for event in whole.events if event.index >= 2]
        part[-1] = part[-1]._replace(value=frozenset())
        found = data_of(page.render(whole._replace(smallest=part)))
        self.assertEqual(found["labels"], [[2, "read \u2192 {}"]])
        self.assertEqual(found["views"][1]["held"], [[3, "{} or {2}"], [5, "{2}"]])


class Recorded(unittest.TestCase):
    """The histories of the repository that are not legal: each has a page, on which the walk agrees with the verdict."""

    def test_each_has_a_page(self) -> None:
        count = 0
        for judged in recorded.checks():
            words = judged.verdict.split()
            if words[0] == "legal":
                continue
            key, count = int(words[2]), count + 1
            model, budget = judged.models.get(key, judged.model), judged.budgets.get(key, judged.budget)
            mine = history.of_key(judged.events, key)
            walked = page.walked(walk.walk(mine, model, budget), {})
            made = page.PageInput(judged.verdict, key, mine, model, judged.concurrency, budget, walked=walked)
            with self.subTest(judged.name):
                text = page.render(made)
                self.assertEqual(Reader(text).faults, [])
                self.assertFalse("does not agree" in text)
                if words[0] == "illegal":
                    self.assertTrue('data-end="0"' in text)
                lines = page.bars(made, 100).split("\n")
                self.assertLessEqual(len(lines), 20)
                self.assertLessEqual(max(map(len, lines)), 110)
        self.assertGreater(count, 20)


if __name__ == "__main__":
    unittest.main()
