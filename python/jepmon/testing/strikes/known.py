"""All strikes by name: those that any server can have, and those of a server's file."""
from __future__ import annotations

from typing import TYPE_CHECKING, Dict, Type

from . import clients, clock, links, power, process
from .kind import Strike

if TYPE_CHECKING:
    from ..server import Server

STRIKES: Dict[str, Strike] = {**process.STRIKES, **links.STRIKES, **power.STRIKES, **clock.STRIKES,
                             **clients.STRIKES}


def strikes_of(server: Type[Server]) -> Dict[str, Strike]:
    return {**STRIKES, **server.strikes}
