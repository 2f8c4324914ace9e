"""The charts as SVG: rates and latencies over time, a pair for each operation. The faults are above them, and their shades are behind all
charts."""
from __future__ import annotations

import html
import math
from typing import Callable, Counter, Iterator, List, Sequence, Tuple

from .gathered import OUTCOMES, STEPS, Gathered, Sort
from .history import Fault
from .strips import Row, depths, rows

WIDTH, LEFT, RIGHT = 1100, 158, 22  # pixels: the names of faults, and the scales, are on the left
FIELD = WIDTH - LEFT - RIGHT
HEAD, AXIS = 20, 20  # the space above and below the field of a chart
RATES, STRIP = 96, 18
DECADE = 38  # pixels of a decade of latency
POINTS = 240  # the greatest number of points of a line of rates
TICKS = 14
NAME = 23  # at most this many characters of a fault's name are beside its row
SECOND = 1_000_000_000
LEVELS = (1, 6)  # a mark is faint from the first number of operations in a cell on, and full from the second on


class Chart:
    """The positions, which are the same in each chart of a page."""

    def __init__(self, gathered: Gathered, faults: Sequence[Fault]) -> None:
        self.gathered = gathered
        self.end = max([gathered.end, *(fault.end for fault in faults), SECOND // 10])
        self.faults = faults
        self.pixel = max(1, self.end // FIELD)
        self.shades = list(depths(faults, self.pixel))

    def x(self, moment: int) -> float:
        return LEFT + FIELD * min(max(moment, 0), self.end) / self.end

    def framed(self, title: str, high: int, body: List[str], bottom: bool = True) -> str:
        """Returns a chart whose field is `high` pixels high."""
        whole = HEAD + high + (AXIS if bottom else 4)
        name = html.escape(title)
        lines = [f'<svg viewBox="0 0 {WIDTH} {whole}" role="img" aria-label="{name}">', f'<text class="title" x="{LEFT}" y="14">{name}</text>']
        lines += [f'<path class="shade{depth}" d="M{self.x(begin):.1f} {HEAD}H{max(self.x(end), self.x(begin) + 1):.1f}V{HEAD + high}'
                  f'H{self.x(begin):.1f}z"/>' for begin, end, depth in self.shades]
        for second in ticks(self.end / SECOND):
            x = self.x(round(second * SECOND))
            lines.append(f'<path class="rule" d="M{x:.1f} {HEAD}V{HEAD + high}"/>')
            if bottom:
                lines.append(f'<text class="scale" x="{x:.1f}" y="{HEAD + high + 15}" text-anchor="middle">{second:g} s</text>')
        return "\n".join([*lines, *body, f'<path class="axis" d="M{LEFT} {HEAD + high}H{WIDTH - RIGHT}"/>', "</svg>\n"])

    # --- Faults ---

    def strip(self) -> str:
        """Returns the strip of faults. It is empty if there are none."""
        laid = rows(self.faults, self.end, FIELD)
        if not laid:
            return ""
        body: List[str] = []
        for place, row in enumerate(laid):
            body += self._row(row, HEAD + STRIP * place)
        return self.framed("faults", STRIP * len(laid), body)

    def _row(self, row: Row, top: int) -> Iterator[str]:
        if row.name:
            yield f'<text class="scale" x="{LEFT - 8}" y="{top + 13}" text-anchor="end">{html.escape(cut(row.name, NAME))}'\
                  f"<title>{html.escape(row.name)}</title></text>"
        for bar in row.bars:
            left, wide = self.x(bar.begin), max(2.0, self.x(bar.end) - self.x(bar.begin))
            said = f"{'; '.join(dict.fromkeys(bar.texts[:4]))}{f' and {len(bar.texts) - 4} more' if len(bar.texts) > 4 else ''}"
            span = f"{bar.begin / SECOND:.2f} s" if bar.begin == bar.end else f"{bar.begin / SECOND:.2f} to {bar.end / SECOND:.2f} s"
            yield (f'<rect class="fault" x="{left:.1f}" y="{top + 3}" width="{wide:.1f}" height="{STRIP - 6}" rx="2">'
                   f"<title>{html.escape(f'{said}: {span}')}</title></rect>")
            if bar.who and wide > 7 * len(bar.who) + 4:
                yield f'<text class="who" x="{left + 4:.1f}" y="{top + 13}">{html.escape(bar.who)}</text>'

    # --- Operations ---

    def rates(self, name: str) -> str:
        """The number of these operations that ended per second, with a line for each outcome."""
        joined = max(1, math.ceil(self.end / self.gathered.column / POINTS), math.ceil(SECOND / 4 / self.gathered.column))
        wide = joined * self.gathered.column
        sorts = [(name, outcome) for outcome in OUTCOMES if (name, outcome) in self.gathered.ended]
        counts: List[Tuple[Sort, List[float]]] = []
        for sort in sorts:
            line = [0.0] * (self.end // wide + 1)
            for column, count in self.gathered.ended[sort].items():
                line[min(column // joined, len(line) - 1)] += count * SECOND / wide
            counts.append((sort, line))
        top = nice(max((max(line) for _, line in counts), default=1.0))
        body = list(scale([(top * part / 4, f"{top * part / 4:g}") for part in range(5)], lambda value: HEAD + RATES * (1 - value / top)))
        for (_, outcome), line in reversed(counts):
            points = [(self.x(round((place + 0.5) * wide)), HEAD + RATES * (1 - value / top)) for place, value in enumerate(line)]
            body.append(f'<path class="line {outcome}" d="{path(points)}"/>')
        return self.framed(f"{name}: operations a second, by how they ended", RATES, body)

    def latencies(self, name: str) -> str:
        """The latencies. A mark stands for all operations that began in one column and took about the same time."""
        sorts = [(name, outcome) for outcome in OUTCOMES if (name, outcome) in self.gathered.cells]
        steps = [step for sort in sorts for _, step in self.gathered.cells[sort]]
        low, high = (min(steps) // STEPS, max(steps) // STEPS + 1) if steps else (0, 1)
        tall = DECADE * (high - low)
        body = list(scale([(10.0 ** decade, of_microseconds(decade)) for decade in range(low, high + 1)],
                          lambda value: HEAD + tall - DECADE * (math.log10(value) - low)))
        for sort in sorts:
            body += self._cells(sort, low, HEAD + tall)
        return self.framed(f"{name}: latency, by the time at which each began", tall, body)

    def _cells(self, sort: Sort, low: int, bottom: int) -> Iterator[str]:
        cells: Counter[Tuple[int, int]] = self.gathered.cells[sort]
        wide, tall = max(2, round(FIELD * self.gathered.column / self.end) - 1), DECADE / STEPS
        for level, least in enumerate(LEVELS):
            most = LEVELS[level + 1] if level + 1 < len(LEVELS) else 1 << 62
            chosen = sorted(cell for cell, count in cells.items() if least <= count < most)
            parts = [f"M{self.x(column * self.gathered.column):.0f} {bottom - tall * (first - STEPS * low + many):.1f}"
                     + mark(sort[1], wide, tall, many) for column, first, many in runs(chosen, sort[1] == "ok")]
            if parts:
                yield f'<path class="cell{level} {sort[1]}" d="{"".join(parts)}"/>'


def runs(cells: Sequence[Tuple[int, int]], join: bool) -> Iterator[Tuple[int, int, int]]:
    """Yields runs of cells: the column, the step, and the number of adjacent cells above it. With `join` adjacent cells are one run,
    otherwise each cell is a run."""
    place = 0
    while place < len(cells):
        column, step = cells[place]
        many = 1
        while join and cells[place + many:place + many + 1] == [(column, step + many)]:
            many += 1
        yield column, step, many
        place += many


def mark(outcome: str, wide: int, tall: float, many: int) -> str:
    """A square for an ok, a flat one for a fail, an hourglass for an info."""
    if outcome == "info":
        return f"l{wide} {tall:.1f}h-{wide}l{wide} -{tall:.1f}z"
    return f"h{wide}v{tall * many / (2 if outcome == 'fail' else 1):.1f}h-{wide}z"


def scale(marks: Sequence[Tuple[float, str]], y: Callable[[float], float]) -> Iterator[str]:
    for value, text in marks:
        yield f'<path class="rule" d="M{LEFT} {y(value):.1f}H{WIDTH - RIGHT}"/>'
        yield f'<text class="scale" x="{LEFT - 8}" y="{y(value) + 4:.1f}" text-anchor="end">{text}</text>'


def path(points: Sequence[Tuple[float, float]]) -> str:
    """The line through these points, without points between two others at the same height."""
    kept = [point for place, point in enumerate(points)
            if not (0 < place < len(points) - 1 and points[place - 1][1] == point[1] == points[place + 1][1])]
    return "M" + "L".join(f"{x:.1f} {y:.1f}" for x, y in kept)


def ticks(seconds: float) -> List[float]:
    step = nice(seconds / TICKS)
    return [round(step * place, 6) for place in range(int(seconds / step + 1e-9) + 1)]


def nice(value: float) -> float:
    """The least of 1, 2, 5, 10, 20, .. and their tenths that is not below the value."""
    power = 10.0 ** math.floor(math.log10(max(value, 1e-3)))
    return next((round(power * step, 9) for step in (1, 2, 5) if power * step >= value * (1 - 1e-9)), power * 10)


def of_microseconds(decade: int) -> str:
    """A power of ten of microseconds, in words."""
    unit, power = (("\u00b5s", decade), ("ms", decade - 3), ("s", decade - 6))[min(2, decade // 3)]
    return f"{10 ** power} {unit}"


def cut(text: str, most: int) -> str:
    return text if len(text) <= most else text[:most - 1] + "\u2026"
