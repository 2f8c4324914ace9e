"""The cases of tests/browser.py on the pages of runs: in light and in dark, wide and narrow, and on paper."""
from __future__ import annotations

import functools
import random
from typing import Callable, Dict, List, Tuple

from browser_driver import WIDER, Browser
from case_loop import differing

from jepmon import rates
from jepmon.history.fault_notes import OVER, note_line
from jepmon.history.line import event_line

SECOND = 1_000_000_000
CONTRAST, OF_BADGES = 4.5, 3.0
WIDTHS = (1200, 390)
STRIKES = ("n1 is down, by kill -9 [kill n1, process]", "n2 is paused by SIGSTOP [pause n2, process; while kill n1]",
           "n1 is without power: what it had not synced is lost [power n1, process]",
           "the wall clock of n2 jumps by 12.5 s, to and fro, each 0.02 s [strobe n2, clock, ahead=12.5, period=0.02]",
           "all links of n1 are slow, by 0.05 s and up to 0.01 s more [slow n1, links, delay=0.05, jitter=0.01]")
CAUSE = ("Client 4 read 1945 from key 9, which could not hold 1945 any more.\n  A write is LOST: the wrong answer stays.\n"
         "    event 6313, line 6317: {:type :ok, :process 2, :f :write, :value [9 1945], :time 8547073741}    <-- 1945 comes in\n")
CRASH = ("n1 has died by itself, with status 1. This was found at 14.86 s, 1.19 s after \"n1 is without power\" ended.\n"
         "Its log, n1.log, ends:\n    java.io.IOException: Transaction log: /tmp/jepmon-test-1/n1/data/version-2/log.1 has invalid magic number 0\n")

# Texts of charts and cells that are drawn over one another, and texts that reach beyond their chart.
OVERLAPS = r"""
const found = [];
for (const chart of document.querySelectorAll('.chart svg')) {
  const whole = chart.getBoundingClientRect();
  const boxes = [...chart.querySelectorAll('text')].map((each) => ({text: each.textContent, box: each.getBoundingClientRect()}));
  boxes.forEach((a, at) => {
    if (a.box.left < whole.left - 1 || a.box.right > whole.right + 1) found.push(`${a.text} reaches beyond its chart`);
    for (const b of boxes.slice(at + 1)) {
      const high = Math.min(a.box.bottom, b.box.bottom) - Math.max(a.box.top, b.box.top);
      const wide = Math.min(a.box.right, b.box.right) - Math.max(a.box.left, b.box.left);
      if (wide > 1 && high > 3) found.push(`${a.text} | ${b.text}`);
    }
  });
}
return found.slice(0, 20);
"""
# The contrast of each sort of text in a chart to the ground of the page.
OF_CHARTS = r"""
const parse = (text) => (text.match(/[\d.]+/g) || []).map(Number);
const light = (colour) => colour.slice(0, 3).map((part) => part / 255)
  .map((part) => part <= .03928 ? part / 12.92 : ((part + .055) / 1.055) ** 2.4)
  .reduce((sum, part, at) => sum + part * [.2126, .7152, .0722][at], 0);
const ground = light(parse(getComputedStyle(document.body).backgroundColor)), found = {};
for (const each of document.querySelectorAll('.chart text')) {
  const own = light(parse(getComputedStyle(each).fill));
  found[each.getAttribute('class')] = (Math.max(own, ground) + .05) / (Math.min(own, ground) + .05);
}
return found;
"""


def lines(seconds: int) -> List[str]:
    """A history of three clients under faults that overlap."""
    draws = random.Random(4)
    made: List[Tuple[float, str]] = []
    for client in range(3):
        now = 0.3
        while now < seconds:
            name, key, outcome = draws.choice(("read", "write", "cas")), draws.randrange(4), draws.choices(("ok", "fail", "info"), (80, 15, 5))[0]
            part = {"read": "nil", "write": "5", "cas": "[1 2]"}[name]
            took = 10 ** draws.uniform(-3.5, -0.5)
            made += [(at, event_line(kind, client, name, key, part, f", :time {round(at * SECOND)}"))
                     for kind, at in (("invoke", now), (outcome, now + took))]
            now += took + draws.uniform(0.01, 0.2)
    for number, text in enumerate(STRIKES * 2):
        begin = 1.0 + number * (seconds - 3) / 10
        made += [(at, note_line(kind, text, round(at * SECOND))) for kind, at in (("begin-fault", begin), ("end-fault", begin + 2.5))]
    made.append((seconds + 0.5, note_line("note", OVER, round((seconds + 0.5) * SECOND))))
    return [line for _, line in sorted(made)]


def page_of(verdict: str, seconds: int = 12, **other: object) -> str:
    gathered = rates.Gathered()
    found = rates.read(lines(seconds), gathered)
    bad = verdict.startswith("illegal")
    keys = [rates.KeyRow(str(key), "part-0001", verdict if bad and key == 1 else "legal", counts, "page.html" if bad and key == 1 else "")
            for key, counts in found.keys.items()]
    facts = [("server", "Redis"), ("version", "Redis server v=7.0.15 sha=00000000:0 malloc=jemalloc-5.3.0 bits=64 build=ae4d7c971a948f0")]
    return rates.render(rates.RatesPage(verdict, gathered, found.faults, keys, facts, "jepmon-test redis --nemesis all,bump --time 12",
                                        [("n1.log", "n1.log"), ("verdict.txt", "verdict.txt")])._replace(**other))  # type: ignore[arg-type]


MADE: Dict[str, Callable[[], str]] = {
    "legal_run": lambda: page_of("legal"),
    "illegal_run": lambda: page_of("illegal key 1 index 8677 of part-0001", sections=[rates.Section("Cause, in part-0001", CAUSE)]),
    "crashed_run": lambda: page_of("crashed n1: it has died by itself, with status 1", sections=[rates.Section("Crash", CRASH)]),
}


def looks(browser: Browser, name: str) -> List[str]:
    """No text over another one, none too faint, nothing wider than the window, and on paper too."""
    faults: List[str] = []
    grounds = set()
    text = MADE[name]()
    for dark in (False, True):
        for width in WIDTHS:
            browser.open(name, text, width, dark=dark)
            at = f"{'dark' if dark else 'light'}, {width} pixels: "
            faults += [at + line for line in browser.ask(OVERLAPS)]
            faults += [f"{at}{sort} has a contrast of {ratio:.2f}" for sort, ratio in [*browser.contrasts().items(), *browser.ask(OF_CHARTS).items()]
                       if ratio < (OF_BADGES if "badge" in sort else CONTRAST)]
            faults += differing(f"{at}the page is wider than the window", browser.ask(WIDER), False)
            grounds.add((dark, browser.ask("return getComputedStyle(document.body).backgroundColor")))
    browser.media(paper=True)
    faults += [f"on paper: {line}" for line in browser.ask(OVERLAPS)]
    faults += differing("the grounds of light and dark", len({ground for _, ground in grounds}), 2)
    return faults + differing("the console", browser.said(), [])


def cases(browser: Browser) -> List[Tuple[str, Callable[[], List[str]]]]:
    return [(f"looks_{name}", functools.partial(looks, browser, name)) for name in MADE]
