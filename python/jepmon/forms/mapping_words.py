"""The options that explain the fields of rows; jepmon-judge and jepmon-from-json have them."""
from __future__ import annotations

import argparse
from typing import Tuple

from . import mapping
from .clock import nanoseconds
from .mapping import CLIENTS, ORDERS, Mapping
from .vocabulary import UNITS

CONTRADICTIONS = ("false", "error")
KINDS = ("ok", "fail", "info")


def add(parser: argparse.ArgumentParser) -> None:
    """Adds the options to a command line."""
    group = parser.add_argument_group("rows of JSON, CSV and logs")
    group.add_argument("--map", metavar="FIELD=NAME", action="append", default=[],
                       help="the field FIELD means what the known name NAME means: with --map path=key the field path is the key; dots lead "
                       "into objects")
    group.add_argument("--mapping", metavar="FILE", help="a mapping file (JSON): fields, words, lines of a log, columns")
    group.add_argument("--time-unit", choices=tuple(UNITS), help="the unit of times that are numbers and do not name one")
    group.add_argument("--unfinished", choices=("info",), help="an operation that is open when its client invokes the next one never returned")
    add_order(parser)


def add_order(parser: argparse.ArgumentParser) -> None:
    """Adds the options of any form whose events have times."""
    group = parser.add_argument_group("events of any form")
    group.add_argument("--ignore", metavar="FIELD", action="append", default=[], help="a field without a meaning for the history")
    group.add_argument("--order", choices=ORDERS, help="take events in the order of their lines, of their :index, or of their times")
    group.add_argument("--skew", metavar="TIME", help="the error of each clock, such as 5ms: orders within it are not certain")
    group.add_argument("--clients", choices=CLIENTS, help="for several files: clients with the same name are a client for each file (apart), "
                       "or one client (one)")
    group.add_argument("--outcome", metavar="WORD=KIND", action="append", default=[], type=_contradiction, help="false=fail: an :ok "
                       "with the answer false is a :fail (in EDN; in rows only of a dequeue); error=info: an :ok with an :error is an :info; KIND is "
                       "ok, fail or info")


def _contradiction(words: str) -> Tuple[str, str]:
    what, _, kind = words.partition("=")
    if what not in CONTRADICTIONS or kind not in KINDS:
        raise argparse.ArgumentTypeError(f"it takes {' or '.join(CONTRADICTIONS)}, =, and one of {', '.join(KINDS)}")
    return what, kind


def of_order(given: argparse.Namespace) -> Mapping:
    """Reads the options for any form."""
    if given.skew is not None:
        nanoseconds(given.skew)  # this refuses a text that is not a length of time
    made = Mapping(order=given.order, skew=given.skew, clients=given.clients, contradictions=dict(given.outcome))
    for field in given.ignore:
        made = made.with_ignored(field)
    return made


def of(given: argparse.Namespace) -> Mapping:
    """Reads the options for rows."""
    made = mapping.read(given.mapping) if given.mapping else Mapping()
    for words in given.map:
        made = made.with_field(words)
    any_form = of_order(given)
    return made._replace(ignored=made.ignored | any_form.ignored, time_unit=given.time_unit or made.time_unit, order=any_form.order,
                         skew=any_form.skew, clients=any_form.clients, contradictions=any_form.contradictions,
                         unfinished=given.unfinished is not None)
