"""Advice for people about a reply that is not `legal`. It is not proved."""
from __future__ import annotations

from typing import AbstractSet, Callable

from ..history.kinds import BUDGETS, DIFFERING, EVENTS, MODELS, THREADS

HINTS = {  # the hint beside a refusal, by the refusal's name
    "HistoryFull": f"a history has {EVENTS} events at most; a LongMonitor judges one history after another",
    "BadBudget": f"a budget is a number from {BUDGETS.start} to {BUDGETS.stop - 1}",
    "BadConcurrency": f"the concurrency is a number from 1 to {THREADS}",
    "NoMemory": "the memory did not suffice: use a smaller budget, or a LongMonitor with fewer events per part",
    "TooLong": "a line has 65536 bytes at most: let the sets that are read be smaller",
}
UNKNOWN = (
    "let fewer clients use one key, let writes go on at a new key after some timeouts while reads stay (Monitor.keys), "
    "or raise the budget"
)
UNKNOWN_WIDE = (
    "answers need many open or timed-out writes: let fewer clients write to one key, let writes go on at a new key after some "
    "timeouts while reads stay (Monitor.keys), or raise the budget"
)
UNKNOWN_FRONTS = (
    "open and timed-out writes and cas operations may leave many values: let fewer clients write to one key, let writes go on at a "
    "new key after some timeouts (Monitor.keys), or raise the budget"
)
UNKNOWN_EQUAL = (
    "two enqueues of one value have not failed, and by its ends the queue was over its budget already: give each message a value of its own"
)
BY_KIND = {"wide-register": UNKNOWN_WIDE, "wide-cas-register": UNKNOWN_FRONTS, DIFFERING: UNKNOWN_EQUAL}
UNKNOWN_QUEUE = (
    "{} enqueues and {} dequeues had completed: let the queue be shorter, let fewer consumers wait on it and fewer producers "
    "send at once, split it into several keys, or raise the budget"
)


def hint_of_refusal(refusal: str) -> str:
    return next((hint for name, hint in HINTS.items() if name in refusal.split()), "")


def hint_of_unknown(kind: str, names: AbstractSet[str], enqueues: int, dequeues: int) -> str:
    """Advice about a key over its budget: by its kind, the names of its operations, and the numbers of completed enqueues and dequeues."""
    return BY_KIND.get(kind) or (UNKNOWN_QUEUE.format(enqueues, dequeues) if "enqueue" in names else UNKNOWN)


def hint_of_model(key: int, model: str, names: AbstractSet[str], is_legal_as: Callable[[str], bool]) -> str:
    """The model that may have been meant for an illegal key, if any. Either its own model lacks an operation of the key, or the key's
    events are legal by another model."""
    others = [other for other in MODELS if other != model and names <= MODELS[other]]
    strange = sorted(names - MODELS.get(model, frozenset(names)))
    if strange:
        meant = f"was {' or '.join(others)} meant?" if others else f"no model has {' and '.join(sorted(names))} together"
        return f"key {key} is judged as a {model}, where no {' and no '.join(strange)} can take place: {meant}"
    fitting = " or ".join(other for other in others if is_legal_as(other))
    return f"key {key} is judged as a {model}, and is legal as {fitting}: was that meant?" if fitting else ""
