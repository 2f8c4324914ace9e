"""Events of EDN with the key in a field of its own, as in the logs of a key-value store in Porcupine's tests.

    {:process 0, :type :invoke, :f :put, :key "3", :value "a"}

In these logs a get of a missing key answers an empty text, and each key is missing at first.
"""
from __future__ import annotations

from typing import Iterator

from .. import edn, history
from ..from_jepsen import apart
from ..from_jepsen.asked import GAP, Counted
from ..from_jepsen.clients import Clients
from . import Refused, rows_told
from .account import Account
from .files import Source
from .rows import Row
from .written import Written

LOOKED_AT = 50  # the first event of a client is searched for in at most this many elements
PORCUPINE = ("get", "put", "append")


def written(source: Source, account: Account, asked: rows_told.Asked) -> Written:
    """The history."""
    is_porcupine = True

    def rows(account: Account) -> Iterator[Row]:
        nonlocal is_porcupine
        pieces = Counted(source.texts())
        for element in edn.Reader(pieces).history():
            fields = {history.unquoted(name): history.plain(field) for name, field in apart.fields_of(element).items()}
            account.skip_to(element.line, GAP)
            account.took(element.line, element.last_line)
            row = Row(element.line, fields)
            is_porcupine = is_porcupine and row.fields.get("f") in PORCUPINE
            if is_porcupine and row.fields.get("value") == "":
                row.fields["value"] = None
            yield row
        account.skip_to(pieces.lines + 1, GAP)

    try:
        found = rows_told.written(rows, account, asked)
    except edn.Unreadable as fault:
        raise Refused(str(fault)) from fault
    return found._replace(nil_is_absent=is_porcupine)


def is_one(text: str) -> bool:
    """Returns whether the first event of a client has its key in a field."""
    try:
        for _, element in zip(range(LOOKED_AT), edn.Reader(text).history()):
            fields = edn.fields_of(element.value)
            if fields is None:
                return False
            if Clients().number_of(fields.get(":process"), True) is not None:
                return ":key" in fields
    except edn.Unreadable:
        pass
    return False
