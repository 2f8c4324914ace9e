"""Puts a page of rates together: one text of HTML, without a script, and without anything from elsewhere."""
from __future__ import annotations

import html
import pathlib
import string
from typing import Iterator

from ..page.captions import counted
from ..page.document import hashed
from ..page.document import resource as of_page
from ..page.labels import printable
from . import tables
from .charts import Chart
from .given import RatesPage
from .history import joined

HERE = pathlib.Path(__file__).resolve().parent
BADGES = {"legal": "\u2713", "illegal": "\u2717", "unknown": "?", "lost": "\u2717", "crashed": "\u2717"}
LONGEST = 20_000  # a section shows at most this many characters


def render(given: RatesPage) -> str:
    """The page."""
    style = of_page("palette.css") + (HERE / "style.css").read_text("utf-8")
    word = given.verdict.split(" ")[0]
    badge = word if word in BADGES else "no verdict"
    rest = given.verdict[len(word):] if word in BADGES else given.verdict.partition("no verdict")[2].lstrip(": ") or given.verdict
    filled = {
        "policy": f"default-src 'none'; img-src data:; style-src {hashed(style)}",
        "title": escaped(given.verdict),
        "style": style,
        "class": badge if badge in BADGES else "none",
        "badge": f'<span aria-hidden="true">{BADGES.get(badge, "")}</span>{badge}',
        "verdict": escaped(rest.strip()),
        "facts": "".join(f"<div><dt>{escaped(name)}</dt><dd>{escaped(value)}</dd></div>" for name, value in given.facts if value),
        "command": f"<pre class=\"command\">{escaped(given.command)}</pre>" if given.command else "",
        "links": links(given),
        "notes": "".join(f'<p class="note">{escaped(note)}</p>' for note in given.notes),
        "body": "\n".join(body(given)),
    }
    text = string.Template((HERE / "rates.html").read_text("utf-8")).substitute(filled)
    return text.encode("utf-8", "backslashreplace").decode("utf-8")


def links(given: RatesPage) -> str:
    if not given.links:
        return ""
    return '<p class="links">' + " ".join(f'<a href="{html.escape(there)}">{escaped(name)}</a>' for name, there in given.links) + "</p>"


def body(given: RatesPage) -> Iterator[str]:
    """Returns the sections, from top to bottom."""
    for section in given.sections:
        more = f"\n({len(section.text) - LONGEST:,} characters more)" if len(section.text) > LONGEST else ""
        yield f"<section><h2>{escaped(section.title)}</h2><pre>{escaped_lines(section.text[:LONGEST])}{more}</pre></section>"
    faults = joined(given.faults)
    if given.gathered.names:
        yield from pictures(given, Chart(given.gathered, faults))
        yield section_of("Latencies of the operations that were ok", tables.latencies(given.gathered))
    if faults:
        found = tables.effects(given.gathered, faults)
        more = f": the {tables.FAULTS} with the longest time without an ok" if len(found) > tables.FAULTS else ""
        yield section_of("Faults", tables.kinds(found) + f"<details open><summary>{len(found):,} in all, each by itself{more}</summary>"
                         f"{tables.single(found)}</details>")
    if given.keys:
        bad = sum(row.status != "legal" for row in given.keys)
        said = counted(len(given.keys), "key") + (f", {bad:,} of them not legal" if bad else ", all legal")
        cut = f": {tables.KEYS:,} of them" if len(given.keys) > tables.KEYS else ""
        yield section_of("Keys", f"<details{' open' if bad or len(given.keys) <= 24 else ''}><summary>{said}{cut}</summary>"
                         f"{tables.keys(given.keys)}</details>")


def pictures(given: RatesPage, chart: Chart) -> Iterator[str]:
    legend = "".join(f'<li><svg class="key" viewBox="0 0 28 12" aria-hidden="true"><path class="line {outcome}" d="M1 6H27"/></svg>{outcome}</li>'
                     for outcome in ("ok", "fail", "info"))
    shade = '<li><svg class="key" viewBox="0 0 28 12" aria-hidden="true"><path class="shade1" d="M0 0H28V12H0z"/><path class="shade2" d="M10 0H28V12H10z"/>' \
            '<path class="shade3" d="M19 0H28V12H19z"/></svg>one, two, three or more faults at once</li>' if chart.shades else ""
    yield (f'<section class="charts"><h2>Rates and latencies</h2><ul class="legend">{legend}{shade}</ul>'
           + "".join(f'<div class="chart">{drawn}</div>' for drawn in drawings(given, chart) if drawn) + "</section>")


def drawings(given: RatesPage, chart: Chart) -> Iterator[str]:
    yield chart.strip()
    for name in given.gathered.names:
        if any(sort[0] == name for sort in given.gathered.ended):
            yield chart.rates(name)
            yield chart.latencies(name)


def section_of(title: str, table: str) -> str:
    return f'<section><h2>{escaped(title)}</h2><div class="scrolled">{table}</div></section>'


def escaped(text: str) -> str:
    return html.escape(printable(text))


def escaped_lines(text: str) -> str:
    return "\n".join(map(escaped, text.rstrip("\n").split("\n")))
