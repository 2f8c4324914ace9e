"""The outcome of an operation, by the fields of its row: words, flags, errors, and statuses of HTTP. The reader refuses a field that it
does not understand, and two fields that contradict each other."""
from __future__ import annotations

from typing import Any, Callable, Iterator, List, Mapping as Map, Optional, Tuple

from . import Refused
from .account import OUTCOME, Account
from .shapes import Fields, Shape, short, shown
from .vocabulary import FALSE, NO_ERROR, TRUE, plain

DEFINITE = ("cas", "acquire", "read", "dequeue")  # if the store refuses one of these, that is an answer: it did not take place
BY_MAPPING = 'a mapping file with "outcomes"'  # the option that settles the meaning of statuses of HTTP
HTTP = range(100, 600)
Said = Tuple[str, Any, str]  # the name of a field, its value, and the outcome that follows


def truth(line: int, name: str, field: Any) -> Optional[bool]:
    """The value of a flag, in the spelling of any language. None if there is no value."""
    if field is None or field is True or field is False:
        return field
    word = str(field).strip().lower() if isinstance(field, (str, int, float)) else None
    if word in TRUE:
        return True
    if word in FALSE:
        return False
    if word == "":
        return None
    raise Refused(f"line {line}: {shown(name)} is {short(field)}, which is neither true nor false; say --ignore {shown(name)} if it does not tell "
                  "how the operation ended")


def error_of(shape: Shape, fields: Fields) -> Optional[Tuple[str, Any]]:
    """Returns the error in the fields. None if there is none."""
    for use in shape.uses.get("error", ()):
        error = fields[use.name]
        if error is None or error is False or error != error or isinstance(error, (str, int)) and str(error).strip().lower() in NO_ERROR:
            continue
        if error not in ([],):
            return use.name, error
    return None


class Outcomes:
    """Reads how operations ended."""

    def __init__(self, words: Map[str, str], account: Account) -> None:
        self._words, self._account = words, account

    def of(self, line: int, name: Optional[str], shape: Shape, fields: Fields, of_type: Optional[Said]) -> Optional[str]:
        """The outcome of an operation of this name. None if no field has it. After an error the operation may have taken place."""
        uses = shape.uses
        if of_type is None and not ("outcome" in uses or "ok" in uses or "error" in uses or "unknown" in uses or "failed" in uses):
            return None
        words = [] if of_type is None else [of_type]
        words += self._words_of(line, shape, fields)
        words += [(name, field, "fail") for name, field, flag in self._flags(line, "failed", shape, fields) if flag]
        doubts = [(name, field, "info") for name, field, flag in self._flags(line, "unknown", shape, fields) if flag]
        error = error_of(shape, fields)
        if error is not None:
            doubts.append((error[0], error[1], "info"))
        flags = [(name, field, "ok" if flag else "not") for name, field, flag in self._flags(line, "ok", shape, fields)]
        _test(line, [*words, *flags, *doubts])
        if words:
            return "info" if any(outcome == "info" for _, _, outcome in words) or words[0][2] == "fail" and _is_doubted(doubts, error) else words[0][2]
        if doubts:
            return "info"
        if flags:
            return "ok" if flags[0][2] == "ok" else "fail" if name in DEFINITE else "info"
        return None

    def word(self, field: Any) -> Optional[str]:
        """Returns the outcome that a word or a status of HTTP means."""
        if isinstance(field, bool):
            return "ok" if field else None
        if isinstance(field, (str, int)):
            outcome = self._words.get(plain(str(field)))
            if outcome is not None:
                return outcome
            number = int(field) if str(field).isdigit() and len(str(field)) == 3 else 0
            if number in HTTP:
                self._account.guess(OUTCOME, "statuses from 100 to 599 are those of HTTP: 2xx is ok, and an operation with another status may "
                                    "have taken place", BY_MAPPING)
                return "ok" if number // 100 == 2 else "info"
        return None

    def _words_of(self, line: int, shape: Shape, fields: Fields) -> Iterator[Said]:
        for use in shape.uses.get("outcome", ()):
            field = fields[use.name]
            if field is None or field == "" or field == {} or isinstance(field, str) and plain(field) in ("unset", "statuscodeunset"):
                continue
            outcome = self.word(field)
            if outcome is None or outcome == "invoke":
                raise Refused(f"line {line}: {shown(use.name)} is {short(field)}, which is not an outcome: it is none of ok, fail, info; say what it is "
                              f'by "outcomes" of a mapping file, or --ignore {shown(use.name)}')
            yield use.name, field, outcome

    def _flags(self, line: int, meaning: str, shape: Shape, fields: Fields) -> Iterator[Tuple[str, Any, bool]]:
        for use in shape.uses.get(meaning, ()):
            flag = truth(line, use.name, fields[use.name])
            if flag is not None:
                yield use.name, fields[use.name], flag


def _is_doubted(doubts: List[Said], error: Any) -> bool:
    """Whether a flag says that the outcome is unknown, while a word says that the operation failed. An error then is the reason of the
    failure."""
    return len(doubts) > (error is not None)


def _test(line: int, says: List[Said]) -> None:
    """Tests that no two fields contradict each other."""
    ok: Callable[[Said], bool] = lambda said: said[2] == "ok"
    good, bad = next(filter(ok, says), None), next((said for said in says if not ok(said)), None)
    if good is not None and bad is not None:
        raise Refused(f"line {line}: {shown(good[0])} is {short(good[1])} and {shown(bad[0])} is {short(bad[1])}: did it take place? say --ignore "
                      "for the field that does not tell")
