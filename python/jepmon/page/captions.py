"""The page's own sentences: its subject, whether the walk agrees with the verdict, and which part is proved."""
from __future__ import annotations

from typing import List, Optional, Tuple

from ..history import Event
from .data import Page
from .given import PageInput, Walked
from .labels import printable

PROVED = ("The verdict is jepmon's, and is proved. So are the answers in sentences that begin with \"jepmon says\". The other sentences, the "
          "possible outcomes and the orders are not proved.")
SIGNS = {"legal": "\u2713", "illegal": "\u2717", "unknown": "?"}
ENDED = {"dead": "illegal at event {}", "over": "unknown at event {}", "alive": "legal"}


def fatal_of(verdict: str) -> Optional[int]:
    """Returns the index that an `illegal` or an `unknown` names."""
    words = verdict.split()
    named = len(words) == 5 and words[0] in ("illegal", "unknown") and words[4].isdigit()
    return int(words[4]) if named else None


def number(value: int) -> str:
    """A number with commas between thousands, for counts. An index has no commas, so that it can be found in the file."""
    return f"{value:,}"


def counted(value: int, of: str) -> str:
    return f"{number(value)} {of}" + ("" if value == 1 else "s")


def agreement(given: PageInput) -> Tuple[bool, str]:
    """Returns whether the walk's results may be shown, and the reason if they may not be and there was a walk."""
    walked = given.walked
    if walked is None:
        return False, ""
    if walked.ended == "gave-up":
        return False, (f"The walk through the events gave up at event {walked.at}, where there was too much to follow. So no "
                       "possible outcomes are shown. The verdict stands.")
    word = given.verdict.split()[0] if given.verdict else ""
    if (word, walked.ended) == ("legal", "alive") or (word, walked.ended, fatal_of(given.verdict)) in (
            ("illegal", "dead", walked.at), ("unknown", "over", walked.at)):
        return True, ""
    found = ENDED.get(walked.ended, walked.ended).format(walked.at)
    return False, (f"The walk through the events does not agree with the verdict: by it this key is {found}. The verdict is the "
                   "one that is proved; please report this. No possible outcomes are shown.")


def headline(page: Page) -> str:
    """The cause in one sentence. Without a cause, the verdict in one sentence."""
    given = page.given
    if given.headline:
        return given.headline
    event = next((event for event in page.choice.events if event.index == page.fatal), None)
    if event is None:
        return "Each prefix of the history is linearizable." if given.verdict == "legal" else ""
    if given.verdict.startswith("unknown"):
        return (f"At event {event.index} more than {counted(given.budget, 'outcome')} were possible, which is the budget: nothing "
                "is said of this key from there on.")
    return f"Up to event {event.index}, {told(event, page)}, the key's history is not linearizable; before it, it is."


def told(event: Event, page: Page) -> str:
    """An event in words: "the ok of read → 1 by process 1"."""
    operation = next((each for each in page.choice.operations if event in (each.invocation, each.completion)), None)
    what = page.labels.operation(operation) if operation is not None else event.name
    return f"the {event.kind} of {what} by process {event.process}"


def facts(page: Page) -> List[Tuple[str, str]]:
    """The judged history, and how it was judged: names and values."""
    given, choice = page.given, page.choice
    name = f" ({printable(given.key_name)})" if given.key_name else ""
    found = [("file", printable(given.file)), ("key", f"{given.key}{name}"),
             ("model", given.model), ("clients", str(given.concurrency)), ("budget", f"{counted(given.budget, 'outcome')}"),
             ("events of the key", number(len(given.events)))]
    return [(name, value) for name, value in found if value]


def left_out(page: Page) -> str:
    """Says which events are not shown."""
    choice = page.choice
    if not choice.before and not choice.after:
        return ""
    return (f"Shown are {number(len(choice.events))} of the key's events, around the fatal one: {number(choice.before)} before "
            f"and {number(choice.after)} after these are not.")


def ends_title(page: Page, walked: Walked) -> str:
    if walked.is_order:
        return "One order of the operations" + ("" if page.fatal is None else f", up to event {page.fatal}: it does not go on")
    none = "which does not go on" if walked.fatal_count == 1 else "none of which goes on"
    return f"What was possible just before event {page.fatal}: {counted(walked.fatal_count, 'outcome')}, {none}"
