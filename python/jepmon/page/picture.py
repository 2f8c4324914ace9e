"""The picture of a bad key as one SVG file, for a document: the bars, the fatal event, and the values that the object could hold. It has a
light and a dark look, and its own background, so that it can be read on any page.

    python3 -m jepmon.page.picture examples/stale-replica.edn 3 > docs/stale-replica.svg  # the file, and its number of clients
"""
from __future__ import annotations

import html
import pathlib
import re
import sys
from typing import Dict, Iterator, List, Optional, Sequence, Tuple

from ..history import Event, of_key, operations, read_history
from ..history.kinds import BUDGET
from ..objects import configurations as walk
from . import layout
from .from_walk import walked
from .given import Walked
from .labels import MARKS, Labels
from .view import View, view

NAMES = 76  # pixels for the lanes' names
AXIS, ROW, BAR, HELD, FRAME = 30, 34, 22, 34, 12
STRETCH = 1.15
COLOURS = ("paper", "ink", "quiet", "rule", "panel", "read", "read-edge", "change", "change-edge", "late", "late-edge", "failed",
           "failed-edge", "fatal", "fatal-edge")
RULES = """text { font: 12px ui-monospace, SFMono-Regular, Menlo, Consolas, "DejaVu Sans Mono", monospace; fill: {ink}; }
.name, .quiet { font-family: system-ui, "Segoe UI", Roboto, sans-serif; } .name { font-weight: 600; } .quiet { fill: {quiet}; }
.ground { fill: {paper}; stroke: {rule}; } .panel { fill: {panel}; } .rule { stroke: {rule}; }
.read { fill: {read}; stroke: {read-edge}; } .change { fill: {change}; stroke: {change-edge}; } .thick { fill: {change-edge}; }
.info, .open { fill: {late}; stroke: {late-edge}; stroke-dasharray: 5 3; } .info + .thick { fill: {late-edge}; }
.fail { fill: {failed}; stroke: {failed-edge}; stroke-dasharray: 2 2; }
.fatal { fill: {fatal}; stroke: {fatal-edge}; stroke-width: 2.5; }
.line { stroke: {fatal-edge}; stroke-width: 2; stroke-dasharray: 5 4; } .bold { font-weight: 700; }
.held { fill: {fatal-edge}; font-weight: 700; }
.flag { fill: {fatal-edge}; } .on-flag { fill: {paper}; font-weight: 700; }
"""


def picture(history: str, concurrency: int, model: str = "register", budget: int = BUDGET) -> str:
    """The picture of the first illegal key of the history. If no key is illegal, of the first key."""
    events = read_history(history)
    keys = list(dict.fromkeys(event.key for event in events if event.key >= 0))
    walks = {key: walk.walk(of_key(events, key), model, budget) for key in keys}
    key = next((key for key in keys if walks[key].status == "dead"), keys[0])
    return svg(of_key(events, key), concurrency, walked(walks[key], {}), f"key {key}")


def svg(events: Sequence[Event], concurrency: int, found: Walked, name: str) -> str:
    labels = Labels({})
    fatal = found.at if found.ended == "dead" else None
    last = events[-1].index if fatal is None else fatal
    laid = view(events, operations(events, concurrency), last, (), labels, found)
    drawing = Drawing(laid, labels, fatal)
    title = f"{name}: " + ("illegal at event " + str(fatal) if fatal is not None else "legal")
    body = "\n".join([*drawing.ground(), *drawing.bars(), *drawing.foot(found)])
    return (f'<svg xmlns="http://www.w3.org/2000/svg" viewBox="0 0 {drawing.width} {drawing.height}" width="{drawing.width}" '
            f'height="{drawing.height}" role="img" aria-labelledby="title">\n<title id="title">{html.escape(title)}</title>\n'
            f"<style>\n{rules()}</style>\n{body}\n</svg>\n")


def rules() -> str:
    """Returns the style in its two looks, with plain colours: some programs that draw SVG don't know variables."""
    light, dark = palette()
    return filled(RULES, light) + "@media (prefers-color-scheme: dark) {\n" + filled(RULES, dark) + "}\n"


def filled(text: str, colours: Dict[str, str]) -> str:
    for name in COLOURS:
        text = text.replace("{" + name + "}", colours[name])
    return text


def palette() -> Tuple[Dict[str, str], Dict[str, str]]:
    """The colours of the page, in light and in dark."""
    text = (pathlib.Path(__file__).resolve().parent / "palette.css").read_text("utf-8")
    light, dark = (dict(re.findall(r"--([a-z-]+): ([^;]+);", part)) for part in text.split("@media"))
    return light, dark


class Drawing:
    """The parts of the picture, each as lines of SVG."""

    def __init__(self, laid: View, labels: Labels, fatal: Optional[int]) -> None:
        self.laid, self.labels, self.fatal = laid, labels, fatal
        self.tops: List[int] = []
        top = FRAME + AXIS
        for lane in laid.lanes:
            self.tops.append(top)
            top += lane.rows * ROW + 4
        self.bottom = top
        self.right = NAMES + round(laid.width * STRETCH)
        self.width, self.height = self.right + FRAME, self.bottom + HELD

    def x(self, place: int) -> int:
        """The position of the event at this place. Before the first and behind the last event it is the edge."""
        if place < 0:
            return NAMES
        return NAMES + round(self.laid.places[place] * STRETCH) if place < len(self.laid.places) else self.right

    def ground(self) -> Iterator[str]:
        """The ground, the ruler of events, and the lanes with their names."""
        yield f'<rect class="ground" x=".5" y=".5" width="{self.width - 1}" height="{self.height - 1}" rx="8"/>'
        yield f'<text class="quiet" x="{FRAME}" y="{FRAME + 17}">event</text>'
        for place, index in enumerate(self.laid.columns):
            x = self.x(place)
            if index == self.fatal:
                yield f'<rect class="flag" x="{x - 14}" y="{FRAME + 4}" width="28" height="18" rx="9"/>'
            else:
                yield f'<line class="rule" x1="{x}" x2="{x}" y1="{FRAME + AXIS - 4}" y2="{self.bottom}"/>'
            yield (f'<text class="{"on-flag" if index == self.fatal else "quiet"}" x="{x}" y="{FRAME + 17}" '
                   f'text-anchor="middle">{index}</text>')
        for lane, top in zip(self.laid.lanes, self.tops):
            yield f'<line class="rule" x1="{FRAME}" x2="{self.right}" y1="{top - 2}" y2="{top - 2}"/>'
            yield f'<text class="name" x="{FRAME}" y="{top + 20}">client {lane.thread}</text>'

    def bars(self) -> Iterator[str]:
        for lane, top in zip(self.laid.lanes, self.tops):
            for bar in lane.bars:
                yield from self.bar(bar, top + bar.row * ROW + 4)
        if self.fatal in self.laid.columns:
            x = self.x(self.laid.columns.index(self.fatal)) if self.fatal is not None else 0
            yield f'<line class="line" x1="{x}" x2="{x}" y1="{FRAME + AXIS - 6}" y2="{self.bottom}"/>'

    def bar(self, bar: layout.Bar, y: int) -> Iterator[str]:
        operation = bar.operation
        left, right = self.x(bar.begin), self.x(bar.end)
        is_fatal = operation.completion is not None and operation.completion.index == self.fatal
        read = operation.invocation.name == "read"
        kind = "fatal" if is_fatal else operation.outcome if operation.outcome != "ok" else "read" if read else "change"
        yield f'<rect class="{kind}" x="{left}" y="{y}" width="{right - left}" height="{BAR}" rx="{BAR // 2 if read else 3}"/>'
        if not read and not is_fatal:
            yield f'<rect class="thick" x="{left}" y="{y}" width="4" height="{BAR}" rx="1"/>'
        mark = MARKS[operation.outcome]
        label = html.escape(self.labels.operation(operation) + (f" {mark}" if mark else ""))
        yield f'<text class="{"bold" if is_fatal else ""}" x="{left + 11}" y="{y + 15}">{label}</text>'

    def foot(self, found: Walked) -> Iterator[str]:
        """The values that the object could hold, from one ok to the next."""
        y = self.bottom
        wide, high = self.width - 2, self.height - y - 9
        yield f'<path class="panel" d="M1 {y}h{wide}v{high}a8 8 0 0 1 -8 8H9a8 8 0 0 1 -8 -8z"/>'
        yield f'<line class="rule" x1="1" x2="{self.width - 1}" y1="{y}" y2="{y}"/>'
        yield f'<text class="quiet" x="{FRAME}" y="{y + 21}">could hold</text>'
        left = NAMES
        for index, text in found.held:
            right = self.x(self.laid.columns.index(index))
            kind = "held" if index == self.fatal else ""
            yield f'<text class="{kind}" x="{(left + right) // 2}" y="{y + 21}" text-anchor="middle">{html.escape(text)}</text>'
            kind = "line" if index == self.fatal else "rule"
            yield f'<line class="{kind}" x1="{right}" x2="{right}" y1="{y}" y2="{self.height - 1}"/>'
            left = right


def main(words: Sequence[str]) -> int:
    if len(words) != 2 or not words[1].isdigit() or int(words[1]) < 1:
        print("picture: needs a history and its number of clients", file=sys.stderr)
        return 3
    sys.stdout.write(picture(pathlib.Path(words[0]).read_text("utf-8"), int(words[1])))
    return 0


if __name__ == "__main__":
    sys.exit(main(sys.argv[1:]))
