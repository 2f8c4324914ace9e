"""Sorts events into the order in which they took place, if the lines of a file are in another order.

If each event has its own :index, this gives the order: such a file was sorted by something else. If the files of clients are one behind
another, the :time gives the order: the events of each client are in order, so they are paired into operations, which are ordered by their
times (timeline.py). Two runs in one file are not one history: there the :index begins again, and a client has events on both sides. Such a
file is refused, and so is a file without an order by :index or :time.
"""
from __future__ import annotations

import itertools
from typing import Callable, Dict, Iterable, Iterator, List, Optional, Sequence, Set, Tuple

from .. import edn
from ..edn import Value, integer, spelling
from ..forms.account import ORDER, Account
from ..forms.mapping import INDEX, LINES, TIMES
from ..forms.order import APART, BY_TIMES, ONE_CLOCK, SKEW, Blocks
from ..forms.timeline import Timeline
from ..history.sorted_rows import SortedRows
from .apart import Apart, fields_of
from .asked import GAP, Asked, Counted
from .clients import Clients
from .collect import Collector
from .events import History
from .order import Time, Times
from .refusal import OutOfOrder, Refusal, refuse

Texts = Callable[[], Iterator[str]]
Fields = Dict[str, Value]
SETTLES = "--order lines|index|times"


class Facts:
    """The order of the events of clients, by their own fields."""

    def __init__(self, has_times: bool = True) -> None:
        self._reader = Times() if has_times else None
        self.lines: List[int] = []
        self.processes: List[str] = []
        self.indices: List[Optional[int]] = []
        self.times: List[Optional[Time]] = []
        self._begun: Dict[str, Optional[int]] = {}  # the :index of each client's invocation
        self._of_operations = True  # whether each completion has the :index of its invocation

    def take(self, line: int, process: str, fields: Fields) -> None:
        index = integer(fields.get(":index"))
        if fields.get(":type") == ":invoke":
            self._begun[process] = index
        elif index is None or self._begun.get(process) != index:
            self._of_operations = False
        self.lines.append(line)
        self.processes.append(process)
        self.indices.append(index)
        self.times.append(None if self._reader is None else self._reader.of(line, fields.get(":time")))

    def close(self) -> None:
        """Forgets each :index if these are numbers of operations, which say nothing of the order of events."""
        if self._of_operations:
            self.indices = [None] * len(self.indices)

    def is_indexed(self) -> bool:
        """Whether each event has an :index of its own."""
        return None not in self.indices and len(set(self.indices)) == len(self.indices)

    def begins_again(self) -> Optional[int]:
        """The place of the first event whose :index is less than that of the event before it."""
        last = -1
        for place, index in enumerate(self.indices):
            if index is not None:
                if index < last:
                    return place
                last = index
        return None

    def twice(self) -> Optional[str]:
        """Describes an :index that two events have, with their lines."""
        first: Dict[int, int] = {}
        for line, index in zip(self.lines, self.indices):
            if index is not None and first.setdefault(index, line) != line:
                return f"line {line}: the :index {index} is that of line {first[index]} too"
        return None

    def goes_back(self) -> Optional[int]:
        """Returns the place of the first event whose :time goes back."""
        last: Optional[Time] = None
        for place, time in enumerate(self.times):
            if time is not None:
                if last is not None and time < last:
                    return place
                last = time
        return None

    def test_blocks(self, account: Account) -> None:
        """Records the guess if some clients come behind all others, as if no event had an :index."""
        blocks = Blocks(self.is_indexed())
        for line, process, time in zip(self.lines, self.processes, self.times):
            blocks.take(process, line, time)
        blocks.close(account)

    def on_both_sides(self) -> Optional[str]:
        """A client with events before and after the place at which its file's :index begins again."""
        before: Set[str] = set()
        now: Set[str] = set()
        last = -1
        for process, index in zip(self.processes, self.indices):
            if index is not None:
                if index < last:
                    before |= now
                    now.clear()
                last = index
            if process in before:
                return process
            now.add(process)
        return None


def ordered(texts: Texts, asked: Asked, account: Account, fault: Optional[Refusal]) -> History:
    """The history, with its events in their order. If no order is known, raises the fault of the order of the lines."""
    facts = read(texts(), asked, account)
    order = asked.order or (TIMES if asked.skew is not None else of_files(facts, account) if asked.clients is not None else found(facts, account, fault))
    collector = Collector(asked._replace(order=order), scratch := Account())
    if order == LINES:
        facts.test_blocks(account)
        history = collector.collect(texts())
    else:
        collector.count = by_index(texts(), asked, facts, collector) if order == INDEX else by_time(texts(), asked, collector, account)
        history = collector.finished()
    for guess in scratch.guesses:
        account.guess(*guess)
    return history


def of_files(facts: Facts, account: Account) -> str:
    """The field by which the events of several files are in order."""
    if None not in facts.times:
        account.guess(ORDER, ONE_CLOCK, SKEW)
        return TIMES
    if facts.is_indexed():
        return INDEX
    raise OutOfOrder(f"line {facts.lines[facts.times.index(None)]}: this event has no :time, and there are several files: which came first?")


def read(texts: Iterable[str], asked: Asked, account: Account) -> Facts:
    """Reads the fields that give the order of the events. Accounts for all lines."""
    facts, parts = Facts(asked.order != INDEX), parts_of(texts, asked)
    for element, process, fields in elements(parts, asked):
        if process is None:
            account.took_none(f"of {spelling(fields.get(':process', 'nil'))}", element.line, element.last_line)
        else:
            account.took(element.line, element.last_line)
            facts.take(element.line, process, fields)
    facts.close()
    lines = parts[-1][0] + parts[-1][1].lines
    account.skip(GAP, lines - account.taken - sum(account.skipped.values()))
    account.close(lines)
    return facts


def parts_of(texts: Iterable[str], asked: Asked) -> List[Tuple[int, Counted]]:
    """The text, or the texts of several files, each with the number of lines before it."""
    return [(base, Counted(part.texts())) for base, part in asked.parts] or [(0, Counted(texts))]


def elements(parts: Sequence[Tuple[int, Counted]], asked: Asked) -> Iterator[Tuple[edn.Element, Optional[str], Fields]]:
    """The events, each with its client if it has one."""
    clients, apart = Clients(), Apart(asked.ignored)
    try:
        for element in itertools.chain.from_iterable(edn.Reader(pieces, line=base + 1).history() for base, pieces in parts):
            fields = fields_of(element)
            is_client = clients.number_of(fields.get(":process"), fields.get(":type") == ":invoke") is not None
            process = spelling(fields[":process"]) if is_client else None
            if is_client:
                apart.take(element.line, fields)
            yield element, process if process is None or asked.clients is None else asked.clients(process, element.line), fields
    except edn.Unreadable as unreadable:
        raise Refusal(str(unreadable)) from unreadable


def found(facts: Facts, account: Account, fault: Optional[Refusal]) -> str:
    """The field by which the events are in order. Raises Refused if there is no such field."""
    again, back = facts.begins_again(), facts.goes_back()
    twice = facts.twice() if again is None else None
    if twice is not None:
        raise OutOfOrder(f"{twice}: are there two runs in one file? {SETTLES}")
    if again is None and back is None:
        if fault is None or not isinstance(fault, OutOfOrder):
            raise fault or OutOfOrder("there is no order")
        return LINES
    if facts.is_indexed() and again is not None:
        if back is None and None not in facts.times:
            refuse(facts.lines[again], f"the :index goes back, and the :time does not: which is the order? say {SETTLES}")
        account.guess(ORDER, f"the :index goes back in line {facts.lines[again]}; events are taken in the order of the :index", "--order index")
        return INDEX
    both = facts.on_both_sides()
    if again is not None and both is not None:
        raise OutOfOrder(f"line {facts.lines[again]}: the :index begins again, and process {both} is on both sides: are there two runs in one "
                         "file? judge each by itself; --order lines takes them as one")
    if None in facts.times:
        place = facts.lines[again if again is not None else back or 0]
        raise OutOfOrder(f"line {place}: events are not in their order, and the event of line {facts.lines[facts.times.index(None)]} "
                         f"has no :time: which came first? {SETTLES}")
    if back is None:
        account.guess(ORDER, f"the :index begins again in line {facts.lines[again or 0]}, where other clients begin, and the :time rises: events are taken "
                      "in the order of their lines", "--order lines")
        return LINES
    account.guess(ORDER, f"the :time goes back in line {facts.lines[back]}; operations are taken in the order of the :time, which has to be of "
                  "one clock", BY_TIMES)
    return TIMES


def by_index(texts: Iterable[str], asked: Asked, facts: Facts, collector: Collector) -> int:
    """Takes the events in the order of the :index; other events follow the event before which they stand."""
    if not facts.is_indexed():
        raise OutOfOrder("not each event has an :index of its own: there is no order by it")
    rows, last = SortedRows(), -1
    for place, (element, process, fields) in enumerate(elements(parts_of(texts, asked), asked)):
        index = integer(fields.get(":index"))
        last = last if index is None else index
        rows.put((last, place, element.line, element.text))
    count = 0
    for count, (_, _, line, text) in enumerate(rows, 1):
        collector.take(again(line, text), count - 1)
    return count


def by_time(texts: Iterable[str], asked: Asked, collector: Collector, account: Account) -> int:
    """Takes the operations in the order of their times. Each operation begins earlier and ends later by a clock error."""
    timeline, faults = timeline_of(texts, asked)
    count = 0
    if asked.skew is None and timeline.are_apart():
        account.guess(ORDER, APART, SKEW)
    skew = asked.skew or 0
    for moment in timeline.moments(skew, skew):
        while faults and moment.given is not None and faults[-1][0] <= moment.given[2]:
            collector.take(again(*faults.pop()[2:]), count)
        if moment.given is None:
            collector.give_up(moment.process)
            continue
        line, text, _ = moment.given
        fields = edn.fields_of(again(line, text).value) or {}
        collector.take_event(line, moment.process, fields, count)
        count += 1
    if timeline.overlaps:
        collector.history.notes["operations that touch another one of their client, as processes of their own"] = timeline.overlaps
    for _, _, line, text in reversed(faults):
        collector.take(again(line, text), count)
    return count


def timeline_of(texts: Iterable[str], asked: Asked) -> Tuple[Timeline, List[Tuple[Time, int, int, str]]]:
    """The operations of clients, and the events of the nemesis by their times, the latest first."""
    times, timeline, faults = Times(), Timeline(), []  # type: Times, Timeline, List[Tuple[Time, int, int, str]]
    opened: Dict[str, Tuple[Time, int, str]] = {}
    latest: Dict[str, Time] = {}
    for element, process, fields in elements(parts_of(texts, asked), asked):
        time, line = times.of(element.line, fields.get(":time")), element.line
        if process is None:
            faults.append((0 if time is None else time, -line, line, element.text))
            continue
        if time is None:
            raise OutOfOrder(f"line {line}: this event has no :time: there is no order by it")
        if time < latest.get(process, time):
            raise OutOfOrder(f"line {line}: the :time of process {process} goes back: are there two runs in one file? judge each by itself")
        latest[process] = time
        if fields.get(":type") == ":invoke":
            if process in opened:
                refuse(line, f"process {process} invokes {edn.shown(fields.get(':f', 'nil'))}, and its operation of line {opened[process][1]} is not completed")
            opened[process] = time, line, element.text
            continue
        if process not in opened:
            refuse(line, f"process {process} completes {edn.shown(fields.get(':f', 'nil'))} and has invoked nothing: is the beginning missing?")
        call, begun, text = opened.pop(process)
        timeline.operation(process, call, time, (edn.keyword(fields.get(":type")) or ""), (begun, text, call), (line, element.text, time))
    for process, (call, begun, text) in opened.items():
        timeline.operation(process, call, None, "info", (begun, text, call), None)
    return timeline, sorted(faults, reverse=True)


def again(line: int, text: str) -> edn.Element:
    """Reads again the element of this text."""
    return next(itertools.islice(edn.Reader(text, line=line).elements(), 1))
