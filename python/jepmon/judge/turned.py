"""A history in another form than jepmon's own, judged by shards: its events, with the facts in its file."""
from __future__ import annotations

from typing import Dict, List, Mapping, Sequence

from ..forms import faults
from ..forms.door import Translation
from ..forms.own import Facts
from ..forms.recorded import Recorded
from ..from_jepsen import Turned
from ..history import Event


def recorded(made: Translation, turned: Turned) -> Recorded:
    """The facts about a history in addition to its events."""
    return Recorded(made.form, "", Facts(), made.account, key_names=turned.names.keys, value_names=turned.names.values, translation=made,
                    faults=faults.of_nemesis(turned.history.nemesis, turned.begun))


def with_lines(made: Translation, turned: Turned, keys: Mapping[int, Sequence[Event]]) -> Dict[int, List[Event]]:
    """The events of each key, with their line numbers in the file and the times and errors that the file gives."""
    wanted = {event.index for events in keys.values() for event in events}
    lines = {index: line for index, line in enumerate(made.lines(turned.begun)) if index in wanted}
    further = made.beside(wanted, turned.begun)
    return {key: [event._replace(line=lines.get(event.index, 0), fields={**event.fields, **further.get(event.index, {})}) for event in events]
            for key, events in keys.items()}
