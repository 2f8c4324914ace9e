"""Pages for the tests: for each a name and its data. Made by seeds, so always the same."""
from __future__ import annotations

import functools
from typing import Any, Callable, Dict, List

from jepmon import history, page
from jepmon.objects import configurations as walk

from .made_histories import made

HOSTILE = "</script><b onclick=alert(1)>&amp;\u2028<!-- \u0000\u001b[31m \ud83d\ude00 \u5b57\u5b57"


def given(text: str, model: str, concurrency: int, budget: int = 4096, **more: Any) -> page.PageInput:
    """The data of a page of the history's first key, with the verdict that the walk comes to."""
    events = history.read_history(text)
    key = events[0].key
    mine = history.of_key(events, key)
    walked = walk.walk(mine, model, budget)
    word = {"dead": "illegal", "over": "unknown"}.get(walked.status)
    verdict = f"{word} key {key} index {walked.index}" if word else "legal"
    status = {"dead": "dead", "over": "over"}.get(walked.status, "alive") + (f" {walked.index}" if word else "")
    names = more.get("names", {})
    line = f"key {key} model {model} budget {budget} events {len(mine)} status {status}"
    return page.PageInput(verdict, key, mine, model, concurrency, budget, line, f"{model}.edn", page.walked(walked, names), **more)


def smaller(of: page.PageInput) -> List[int]:
    """The indices of the events that are left if operations are removed one by one as long as the walk ends at the same event."""
    at = of.walked.at if of.walked is not None else None
    left = [each for each in history.operations([event for event in of.events if event.index <= (at or 0)], of.concurrency)]
    for each in reversed(list(left)):
        rest = [other for other in left if other is not each]
        events = sorted((event for other in rest for event in other[:2] if event is not None), key=lambda event: event.index)
        found = walk.walk(events, of.model, of.budget)
        if found.status == "dead" and found.index == at:
            left = rest
    return sorted(event.index for each in left for event in each[:2] if event is not None)


def register() -> page.PageInput:
    """40 operations, a cause in words, the smallest part."""
    found = given(made("register", 4, 40, seed=3, wrong_from=25), "register", 4)
    return found._replace(
        smallest=smaller(found), headline="The read answered 21; while it was open the register held 26, 27 or 29.",
        sentences=("21 was last possible just before event 51, the ok of read \u2192 21 by client 3.",
                   "A legal answer: 26, 27 or 29."),
        again="jepmon check register.edn --concurrency 4")


def faults() -> page.PageInput:
    """Bands of faults: one that ends, one that does not, a moment, one told by time, one before the first event."""
    text = made("cas-register", 5, 60, seed=4, wrong_from=40, timeouts=0.03, values=6, times=True)
    found = given(text, "cas-register", 5)
    times = [event.fields["time"] for event in found.events]
    at = found.walked.at if found.walked is not None and found.walked.at is not None else 0
    return found._replace(faults=(
        page.Fault("partition [[n1] [n2 n3]]", at - 20, at - 8), page.Fault("clock of n3 is ahead", at - 5),
        page.Fault("lose-replies 2", at - 12, at - 12), page.Fault("kill n1", times[at - 30], times[at - 25], "time"),
        page.Fault("pause n2", 0, 0)))


def cas_register() -> page.PageInput:
    return given(made("cas-register", 5, 200, seed=4, wrong_from=120, timeouts=0.02, values=6, times=True), "cas-register", 5)


def mutex() -> page.PageInput:
    return given(made("mutex", 4, 60, seed=5, wrong_from=20), "mutex", 4)


def fifo_queue() -> page.PageInput:
    return given(made("fifo-queue", 3, 60, seed=6, wrong_from=30), "fifo-queue", 3)


def unordered_queue() -> page.PageInput:
    return given(made("unordered-queue", 4, 80, seed=7, wrong_from=40), "unordered-queue", 4)


def set_of_adds() -> page.PageInput:
    return given(made("set", 4, 60, seed=8, wrong_from=30), "set", 4)


def unknown() -> page.PageInput:
    """Timed-out writes double the ends until there are too many."""
    return given(made("cas-register", 6, 300, seed=11, timeouts=0.05, values=5, pause=0.6), "cas-register", 6)


def first_ok() -> page.PageInput:
    """The first ok already finds more ends than the budget, so that there are no counts before it."""
    event = "{{:type :{}, :process {}, :f :{}, :value [7 {}]}}\n".format
    writes = [event(kind, 2 * each, "write", 1) for each in range(11) for kind in ("invoke", "info")]
    return given("".join(writes + [event("invoke", 1, "read", "nil"), event("ok", 1, "read", 1)]), "register", 2)


def legal() -> page.PageInput:
    return given(made("register", 3, 30, seed=2), "register", 3)


def failed() -> page.PageInput:
    """The fatal event is a :fail: the write of a value that a read answered was recorded as failed."""
    return given("""{:type :invoke, :process 0, :f :write, :value [7 2]}
{:type :invoke, :process 1, :f :read, :value [7 nil]}
{:type :ok, :process 1, :f :read, :value [7 2]}
{:type :fail, :process 0, :f :write, :value [7 2]}
""", "register", 2)


def hostile() -> page.PageInput:
    """Texts that would break a page that lets them through: values, names, faults, errors, the file."""
    names = {1: HOSTILE, 2: "a\tb\nc", 3: "x" * 300}
    found = given(made("register", 3, 30, seed=5, wrong_from=12, values=4), "register", 3, names=names)
    events = [event._replace(fields={"error": HOSTILE, "time": event.index}, text=event.text[:-1] + ', :error "' + HOSTILE + '"}')
              for event in found.events]
    return found._replace(events=events, file=HOSTILE, headline=HOSTILE, sentences=(HOSTILE,), key_name=HOSTILE, again=HOSTILE,
                          faults=(page.Fault(HOSTILE, 3, 9), page.Fault(HOSTILE, 10)), smallest=events[:9])


def many_clients() -> page.PageInput:
    """64 clients: few are busy at once, and more timed out than a lane has rows for."""
    quiet = given(made("cas-register", 64, 400, seed=12, timeouts=0.0, values=3, pause=0.97), "cas-register", 64)
    return quiet


def many_timeouts() -> page.PageInput:
    """More operations of a client have timed out than its lane has rows."""
    lines: List[str] = []
    for number in range(12):
        lines += [f"{{:type :{kind}, :process {2 * number}, :f :cas, :value [7 [{1000 + number} 1]]}}"
                  for kind in ("invoke", "info")]
    lines += ["{:type :invoke, :process 1, :f :read, :value [7 nil]}", "{:type :ok, :process 1, :f :read, :value [7 5]}"]
    return given("\n".join(lines), "cas-register", 2)


def gave_up() -> page.PageInput:
    found = register()
    return found._replace(walked=page.Walked("gave-up", 20), smallest=())


def disagrees() -> page.PageInput:
    found = register()
    return found._replace(verdict="illegal key 7 index 58", smallest=())


def big(count: int = 5000) -> page.PageInput:
    """A number of operations; the last fifth is behind the fatal event."""
    return given(made("register", 3, count, seed=10, wrong_from=count * 4 // 5), "register", 3)


MADE: Dict[str, Callable[[], page.PageInput]] = {
    made_page.__name__: functools.lru_cache(maxsize=None)(made_page) for made_page in (
        register, faults, cas_register, mutex, fifo_queue, unordered_queue, set_of_adds, unknown, first_ok, legal, failed,
        hostile, many_clients, many_timeouts, gave_up, disagrees)
}
