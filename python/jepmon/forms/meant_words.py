"""The options that explain values; jepmon-judge, jepmon-from-json and jepmon-from-jepsen have them."""
from __future__ import annotations

import argparse

from ..from_jepsen.meant import WAYS


def add(parser: argparse.ArgumentParser) -> None:
    group = parser.add_argument_group("values")
    group.add_argument("--values", choices=WAYS, help="values that count as the same: only equal ones, so 1, 1.0 and \"1\" are three (exact); those "
                       "of one text, such as 1 and \" 1\" (text); those of one number, such as 1, 1.0, \"1\" and true (number)")
    group.add_argument("--absent", metavar="VALUE", action="append", default=[], help="an answer that means that the key is missing, such as \"\", 0 "
                       "or None, whatever its type; it may be said several times")
    group.add_argument("--initial", metavar="VALUE", help="the value of each register before the first operation: an integer or a text")
