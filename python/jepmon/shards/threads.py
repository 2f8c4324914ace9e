"""The number of threads of the processes of a file, by its beginning or by the whole file (see history/process_lives.py)."""
from __future__ import annotations

from typing import Dict, Iterable, Optional, Tuple

from ..history.process_lives import Lives
from .doubt import Doubt
from .lines import HEAD, Row, rows_of
from .pieces import PieceTask, blocks_of
from .sizes import Sizes

FRONT = 4 << 20  # the first search reads this many bytes


class Heads(Dict[bytes, Tuple[int, bool]]):
    """The process of an event, and whether it crashes, by the head of its line."""

    def __missing__(self, text: bytes) -> Tuple[int, bool]:
        match = HEAD.fullmatch(text)
        if match is None:
            raise Doubt
        head = self[text] = int(match.group(2)), match.group(1) == b"info"
        return head


def tell(lives: Lives, rows: Iterable[Row]) -> None:
    heads = Heads()
    for _, text, _, _, _ in rows:
        if text:
            lives.tell(*heads[text])


def fewest_threads(path: str, length: int, sizes: Sizes = Sizes()) -> Optional[int]:
    """Returns the least number of threads that fits the events in the first `length` bytes of a file. None if no number fits, or if the
    lines can't be read here."""
    lives = Lives()
    try:
        for block in blocks_of(PieceTask(path, 0, length, 1, 1, "", sizes)):
            tell(lives, rows_of(block)[0])
    except Doubt:
        return None
    return lives.fewest()
