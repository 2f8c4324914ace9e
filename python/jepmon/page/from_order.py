"""Makes the data of a page from an order of a key's operations that a search found afterwards."""
from __future__ import annotations

from typing import Dict, Mapping, Optional, Sequence

from ..history import Event, operations
from ..history.kinds import ANSWERED
from ..objects import Found
from ..objects.replay import OBJECTS
from .from_walk import state_words
from .given import End, Walked
from .labels import Labels


def ordered(events: Sequence[Event], model: str, concurrency: int, order: Sequence[int], dead: Optional[int],
            names: Mapping[int, str]) -> Walked:
    """The data of a page for this order of all operations, or of the operations before the event at which the key is dead."""
    labels = Labels(names)
    before = [event for event in events if dead is None or event.index < dead]
    by_id = {each.invocation.index: each for each in operations(before, concurrency)}
    replayed = OBJECTS[model]()
    taken: Dict[int, str] = {}
    for index in order:
        asked, completion, _ = by_id[index]
        is_open = completion is None or completion.kind == "info"
        answer = completion.value if completion is not None and not is_open and asked.name in ANSWERED else None
        found = replayed.take(asked.name, asked.value, None if answer is None else (answer,))
        assert found is not None  # the order is valid
        if is_open:
            taken[index] = words_of(asked.name, found[0], labels)
    end = End(state_words(model, replayed.state(), labels), taken, list(order))
    return Walked("alive" if dead is None else "dead", dead, ends=[end], fatal_count=1, is_order=True)


def words_of(name: str, found: Found, labels: Labels) -> str:
    return labels.value(found) if name in ANSWERED else ""
