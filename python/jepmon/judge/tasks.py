"""The task for judging a recorded history, and the result of one check."""
from __future__ import annotations

from ..forms import Refused
from ..forms.files import Source
from ..forms.look_alikes import account_for_types
from ..forms.recorded import Recorded, recorded
from ..program import Options
from . import doubts, models
from .judging import Task, judged
from .words import Given


def of(found: Recorded, given: Given) -> Task:
    """Returns the task: the history, and the way in which it is judged."""
    choice = models.chosen(found.facts, given.model, found.stated, found.possible)
    models.account_for(choice, found.account)
    account_for_types(found.key_names, found.value_names, given.values, found.account)
    if not found.has_commands:  # a log of jepmon script is in jepmon's own form, where nil says nothing
        doubts.account_for_nils(sum(facts.nils_after_values for facts in found.facts.keys.values()), given, found.account)
    concurrency = given.concurrency or models.concurrency_of(found.facts)
    if concurrency is None:
        raise Refused("its processes fit no concurrency from 1 to 64")
    options = Options(concurrency, choice.common or "register", given.budget, given.workers, given.by_ends)
    return Task(found.text, choice, dict(found.budgets), options)


def word_of(source: Source, given: Given) -> str:
    """Returns the verdict on a history if it is read with these options."""
    return judged(of(recorded(source, given.said), given))[1].word
