"""Why a queue whose values are equal is over its budget."""
from __future__ import annotations

from typing import TYPE_CHECKING, Dict, Optional, Sequence, Tuple

from ..history import Operation, operations
from ..history.kinds import DIFFERING
from ..program import check
from ..shrinking.part import as_asked, text_of
from .case import Found, Mention
from .names import capital, client

if TYPE_CHECKING:
    from .unknown import Over

Two = Tuple[Operation, Operation]
ADVICE = "In the next test give each message a value of its own: jepmon judges such a queue without a budget."


def equal_enqueues(made: Sequence[Operation]) -> Optional[Two]:
    """The first two enqueues of one value, neither of which has failed, by the invocation of the second."""
    first: Dict[object, Operation] = {}
    for operation in made:
        if operation.invocation.name == "enqueue" and operation.outcome != "fail":
            other = first.setdefault(operation.invocation.value, operation)
            if other is not operation:
                return other, operation
    return None


def of_equal_values(over: Over) -> Found:
    """Returns the cause, if equal values made the key unknown by the kind wide-fifo-queue."""
    event, named = over.front[-1], over.names.object(over.model, over.key)
    two = equal_enqueues(operations(over.front, over.options.concurrency))
    if two is None:  # the program has found equal values that this function does not find
        return Found(f"{capital(named)} is not judged from event {event.index} on.", [], [Mention(event, "")])
    headline = (f"Before event {event.index} two enqueues of {over.names.value(two[0].invocation.value)} to {named} had not failed, and by its ends "
                "it is over its budget: from there on jepmon does not judge it.")
    mentions = [Mention(each.invocation, "") for each in two] + [Mention(event, "the first ok after both")]
    return Found(headline, [f"{capital(of_two(two))}.", said_by_ends(over), ADVICE], mentions)


def of_two(two: Two) -> str:
    return "they are those of " + " and ".join(f"{client(each)} (event {each.invocation.index})" for each in two)


def said_by_ends(over: Over) -> str:
    """The program's reply to the events by ends."""
    text = text_of(over.whole, over.options.concurrency)
    if not over.effort.may_ask(text, len(over.whole)):
        over.effort.leave_out("what jepmon says of this key by its ends")
        return ""
    report = check(text.encode(), as_asked(over.options)._replace(by_ends=True), over.program)
    if report.word != "unknown" or report.index is None:
        return ""
    return f"jepmon says that this key, judged by its ends, is over its budget at event {over.whole[report.index].index}."


def note_of_equal_values(over: Over) -> str:
    """For a queue that was judged by its ends: the note that different values would need no budget, if this program has the wide kind."""
    if over.options._replace(by_ends=False).kind(over.program) != DIFFERING:
        return ""
    two = equal_enqueues(operations(over.front, over.options.concurrency))
    if two is None:
        return ""
    return f"Two enqueues of {over.names.value(two[0].invocation.value)} had not failed; {of_two(two)}. {ADVICE}"
