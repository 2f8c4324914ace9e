"""Keys and values that look alike and differ, and the guess that they are different."""
from __future__ import annotations

import re
from typing import Dict, List, Mapping, Optional

from ..from_jepsen.meant import NUMBERS, Meant
from .account import TYPE, Account

FEW = 3  # groups that are named
MAY_BE_ALIKE = re.compile(r'"\s*(?:[+-]?[0-9][0-9.eEMN+-]*|true|false|True|False)\s*"|[+-]?[0-9].*|true|false|" .*"|".* "|"?[\[(].*')


def account_for_types(keys: Mapping[int, str], values: Mapping[int, str], said: Optional[str], account: Account) -> None:
    """Records the guess that keys or values which look alike are different, if there is no --values."""
    for what, names in (("keys", keys), ("values", values)):
        groups = alike(names) if said is None else []
        if groups:
            more = f", and {len(groups) - FEW} more groups" if len(groups) > FEW else ""
            shown = "; ".join(" and ".join(group) for group in groups[:FEW])
            account.guess(TYPE, f"{shown} are different {what}{more}", "--values exact|text|number")


def alike(names: Mapping[int, str]) -> List[List[str]]:
    """Groups of values that are the same number, or the same text except for spaces."""
    meant, groups = Meant(NUMBERS), {}  # type: Meant, Dict[str, List[str]]
    spaced = any(name.startswith('" ') or name.endswith(' "') for name in names.values())
    for name in names.values():
        if spaced or MAY_BE_ALIKE.fullmatch(name):
            groups.setdefault(str(meant.alike(name)), []).append(name)
    return [group for group in groups.values() if len(group) > 1]
