"""Decides whether an operation took place if its own answer says that it did not."""
from __future__ import annotations

from typing import Any, Counter, Optional

from ..history import kinds
from . import Refused
from .meaning import MISSING, Told
from .written import element

YES = ("", "ok", "true", "success", "yes", "1", "acquired", "released", "stored", "applied")
NO = ("fail", "failed", "false", "no", "0")
OPEN = ("info", "timeout", "unknown", "error")
UNANSWERED = kinds.OPERATIONS - kinds.ANSWERED
DECIDES = ("cas", "acquire", "release")  # the operations whose answer is true or false


def answered(line: int, name: str, answer: Any) -> Optional[str]:
    """The outcome of an operation with this answer. None if the answer says that the operation took place, or says nothing."""
    if answer is None and name == "cas":
        raise Refused(f"line {line}: a cas is answered by null: did it take place? let an outcome say ok, fail or info")
    if answer is None or answer is True:
        return None
    if answer is False:
        return "fail" if name in ("cas", "acquire") else "info"
    if isinstance(answer, (int, float)) and name in DECIDES and answer in (0, 1):
        return None if answer == 1 else answered(line, name, False)
    if isinstance(answer, str):
        word = answer.strip().lower()
        if word in YES:
            return None
        if word in NO:
            return "fail" if name in ("cas", "acquire") or word.startswith("fail") else "info"
        if word in OPEN:
            return "info"
    raise Refused(f"line {line}: a {name} is answered by {element(answer)[:60]}: did it take place? let an outcome say ok, fail or info, or say "
                  "--ignore for the field with this answer")


def says_no(name: str, answer: Any) -> bool:
    """Whether an ok operation has the answer false, such as a cas whose comparison failed."""
    return name in DECIDES and (answer is False or isinstance(answer, str) and answer.strip().lower() == "false")


def completed(told: Told, kind: str, name: Optional[str], counts: Counter[str]) -> str:
    """The type of a completion. An ok whose answer denies it is not an ok."""
    if kind != "ok":
        return kind
    if told.outcome is not None and told.outcome != "ok":
        counts[f"completions with a field that says that they are not ok: taken as :{told.outcome}"] += 1
        return told.outcome
    if name not in UNANSWERED:
        return kind
    said = told.answer
    if said is MISSING and isinstance(told.value, bool) and name in DECIDES:
        said = told.value
    found = answered(told.line, name, said) if said is not MISSING and said is not None else None
    if found is not None:
        counts[f"completions whose answer says that they are not ok: taken as :{found}"] += 1
    return found or kind
