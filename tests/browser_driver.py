"""The driver of tests/browser.py: one headless Chromium for all cases, and the questions about an open page."""
from __future__ import annotations

import json
import os
import pathlib
import shutil
import sys
from typing import Any, Dict, List, Optional

SYSTEM_PYTHON = "/usr/bin/python3"  # for which Debian's python3-selenium is
ASKED = "JEPMON_BROWSER_BY_SYSTEM_PYTHON"


def have_selenium() -> bool:
    """Whether selenium is there; where another Python of the system has it, this script goes on by that one."""
    try:
        import selenium  # noqa: F401
        return True
    except ImportError:
        if ASKED not in os.environ and os.path.exists(SYSTEM_PYTHON):
            os.environ[ASKED] = "1"
            sys.stdout.flush()
            os.execv(SYSTEM_PYTHON, [SYSTEM_PYTHON] + sys.argv)
        return False


def missing() -> str:
    """The missing parts for a browser; empty if there is none."""
    if not have_selenium():
        return "python3-selenium"
    return next((name for name in ("chromium", "chromedriver") if shutil.which(name) is None), "")


class Browser:
    """A headless Chromium; each case opens its page in it."""

    def __init__(self, folder: pathlib.Path) -> None:
        from selenium import webdriver
        from selenium.webdriver.chrome.options import Options
        from selenium.webdriver.chrome.service import Service
        options: Any = Options()
        options.binary_location = str(shutil.which("chromium"))
        for word in ("--no-sandbox", "--headless=new", "--disable-gpu", "--force-device-scale-factor=1",
                     "--disable-dev-shm-usage"):
            options.add_argument(word)
        options.set_capability("goog:loggingPrefs", {"browser": "ALL"})
        self.driver: Any = webdriver.Chrome(options=options, service=Service(str(shutil.which("chromedriver"))))
        self.driver.set_script_timeout(60)
        self.folder = folder
        self.counting = False

    def quit(self) -> None:
        self.driver.quit()

    def open(self, name: str, text: str, width: int = 1200, height: int = 900, dark: bool = False, scripts: bool = True) -> None:
        """Opens a page of this text."""
        path = self.folder / f"{name}.html"
        path.write_text(text, "utf-8")
        self.driver.get("about:blank")
        self.driver.get_log("browser")
        self.command("Emulation.setDeviceMetricsOverride", width=width, height=height, deviceScaleFactor=1, mobile=False)
        self.media(dark=dark)
        self.command("Emulation.setScriptExecutionDisabled", value=not scripts)
        self.driver.get(path.as_uri())
        if scripts:
            self.settle()

    def media(self, dark: bool = False, paper: bool = False) -> None:
        features = [{"name": "prefers-color-scheme", "value": "dark" if dark else "light"}]
        self.command("Emulation.setEmulatedMedia", media="print" if paper else "", features=features)

    def command(self, name: str, **words: Any) -> Any:
        return self.driver.execute_cdp_cmd(name, words)

    def settle(self) -> None:
        """Waits until what was asked for is drawn."""
        self.driver.execute_async_script(
            "const done = arguments[0]; requestAnimationFrame(() => requestAnimationFrame(() => done()));")

    def worked(self) -> float:
        """The processor seconds that the page has taken so far, since the first call: other work on the machine counts for
        nothing."""
        if not self.counting:
            self.command("Performance.enable", timeDomain="threadTicks")
            self.counting = True
        metrics = self.command("Performance.getMetrics")["metrics"]
        return float(next(each["value"] for each in metrics if each["name"] == "TaskDuration"))

    def ask(self, script: str, *words: Any) -> Any:
        return self.driver.execute_script(script, *words)

    def texts(self, selector: str) -> List[str]:
        return list(self.ask("return [...document.querySelectorAll(arguments[0])].map((each) => each.textContent)", selector))

    def count(self, selector: str) -> int:
        return int(self.ask("return document.querySelectorAll(arguments[0]).length", selector))

    def box(self, selector: str) -> Dict[str, float]:
        found: Optional[Dict[str, float]] = self.ask(
            "const found = document.querySelector(arguments[0]); return found && found.getBoundingClientRect().toJSON()", selector)
        if found is None:
            raise LookupError(f"the page has no {selector}")
        return found

    def click(self, selector: str) -> None:
        """A click of the mouse at the middle of the element's box; where that is not to be seen, the page scrolls there
        before."""
        self.ask("""const found = document.querySelector(arguments[0]);
          if (found && !found.closest('.chart')) found.scrollIntoView({block: 'center'})""", selector)
        box = self.box(selector)
        self.mouse("mouseMoved", box)
        for kind in ("mousePressed", "mouseReleased"):
            self.mouse(kind, box)
        self.settle()

    def point(self, selector: str) -> None:
        self.mouse("mouseMoved", self.box(selector))
        self.settle()

    def mouse(self, kind: str, box: Dict[str, float]) -> None:
        self.command("Input.dispatchMouseEvent", type=kind, x=box["left"] + box["width"] / 2, y=box["top"] + box["height"] / 2,
                     button="none" if kind == "mouseMoved" else "left", clickCount=0 if kind == "mouseMoved" else 1)

    def press(self, *keys: str) -> None:
        """Presses keys by their names, as ArrowLeft, Enter, Escape, Tab."""
        codes = {"Enter": 13, "Escape": 27, "Tab": 9, "Home": 36, "End": 35, "ArrowLeft": 37, "ArrowUp": 38, "ArrowRight": 39,
                 "ArrowDown": 40, " ": 32}
        for key in keys:
            text = {"Enter": "\r", " ": " "}.get(key)
            for kind in ("keyDown", "keyUp"):
                more = {"text": text} if text and kind == "keyDown" else {}
                self.command("Input.dispatchKeyEvent", type=kind, key=key, code="Space" if key == " " else key,
                             windowsVirtualKeyCode=codes[key], **more)
            self.settle()

    def said(self) -> List[str]:
        """The console's messages since the page was opened."""
        return [f"{line['level']}: {line['message']}" for line in self.driver.get_log("browser")]

    def overlaps(self) -> List[str]:
        """Texts of the page that stand over one another, where they are to be seen."""
        return list(self.ask(OVERLAPS))

    def contrasts(self) -> Dict[str, float]:
        """The contrast of each sort of text to its background, as WCAG counts it."""
        return dict(json.loads(self.ask(CONTRASTS)))


# Questions about a page: its focus, its chart, its columns.
WORDS = "return document.activeElement.querySelector('.words').textContent"
TOP_OF = "return document.activeElement.getBoundingClientRect().top"
SCROLL = """const chart = document.getElementById('chart');
chart.scrollLeft = arguments[0] * chart.scrollWidth;
chart.scrollTop = arguments[0] * chart.scrollHeight"""
SEEN = """const a = document.activeElement.getBoundingClientRect(), b = document.getElementById('chart').getBoundingClientRect();
return a.left >= b.left && a.left < b.right && a.top > b.top && a.bottom < b.bottom"""
COLUMNS = """return [...document.querySelectorAll('.count:not(.over)')]
  .map((each) => [Number(each.textContent), each.offsetHeight])"""
MIDDLE = "const chart = document.getElementById('chart'); return (chart.scrollLeft + chart.clientWidth / 2) / chart.scrollWidth"
WIDER = "const all = document.documentElement; return all.scrollWidth > all.clientWidth"
OPERATION = "document.activeElement.dataset.id"

# The visible part of each text: within its ruler, or between the rulers and behind the names.
OVERLAPS = r"""
const chart = document.querySelector('.chart').getBoundingClientRect();
const part = (selector) => {
  const found = document.querySelector(selector);
  return found ? found.getBoundingClientRect() : null;
};
const axis = part('.axis'), foot = part('.foot'), names = part('.axis .corner');
const left = names.right, right = chart.right, middle = foot ? foot.top : chart.bottom;
const fields = [
  ['.field .words, .field .mark, .dot', {left, right, top: axis.bottom, bottom: middle}],
  ['.tick, .fault-name', {left, right, top: axis.top, bottom: axis.bottom}],
  ['.held, .number', foot ? {left, right, top: foot.top, bottom: foot.bottom} : null],
  ['.name', {left: chart.left, right: left, top: axis.bottom, bottom: middle}],
  ['.row-name, .budget-name', {left: chart.left, right: left, top: chart.top, bottom: chart.bottom}],
  ['h1 .badge, h1 .rest, .headline, .sentences li, .facts dt, .facts dd, .proved, .note, .legend li, .switch, ' +
   '.buttons button, h2, .ends > p, summary, .details .title, .details th, .details td', {left: -1e9, right: 1e9, top: -1e9, bottom: 1e9}],
];
const found = [];
for (const [selector, within] of fields) {
  if (!within) continue;
  const boxes = [];
  for (const each of document.querySelectorAll(selector)) {
    let box = each.getBoundingClientRect();
    if (selector === '.row-name, .budget-name' || selector === '.name') {  // the box is wider than its text
      const range = document.createRange();
      range.selectNodeContents(each);
      box = range.getBoundingClientRect();
    }
    const seen = {left: Math.max(box.left, within.left), right: Math.min(box.right, within.right),
      top: Math.max(box.top, within.top), bottom: Math.min(box.bottom, within.bottom), of: each,
      text: each.textContent.slice(0, 30)};
    if (seen.right - seen.left > 1 && seen.bottom - seen.top > 1 && seen.text) boxes.push(seen);
  }
  boxes.sort((a, b) => a.left - b.left);
  boxes.forEach((a, at) => {
    for (let next = at + 1; next < boxes.length && boxes[next].left < a.right - 1; next++) {
      const b = boxes[next];
      const high = Math.min(a.bottom, b.bottom) - Math.max(a.top, b.top);
      const wide = Math.min(a.right, b.right) - Math.max(a.left, b.left);
      const within = a.of.contains(b.of) || b.of.contains(a.of);
      if (wide > 1 && high > 1.5 && !within) found.push(`${a.text} | ${b.text} (${wide.toFixed(1)} x ${high.toFixed(1)})`);
    }
  });
}
return found.slice(0, 20);
"""

# The light of a colour, and the contrast of each text to the first ground behind it that is not seen through.
CONTRASTS = r"""
const parse = (text) => (text.match(/[\d.]+/g) || []).map(Number);
const mixed = (text) => parse(text.slice(10)).map((part, at) => at < 3 ? part * 255 : part);
const rgb = (text) => text.startsWith('color(srgb') ? mixed(text) : parse(text);
const light = (colour) => colour.slice(0, 3).map((part) => part / 255)
  .map((part) => part <= .03928 ? part / 12.92 : ((part + .055) / 1.055) ** 2.4)
  .reduce((sum, part, at) => sum + part * [.2126, .7152, .0722][at], 0);
const ground = (each) => {
  for (let at = each; at; at = at.parentElement) {
    const colour = rgb(getComputedStyle(at).backgroundColor);
    if (colour.length && (colour.length < 4 || colour[3] > .99)) return colour;
  }
  return [255, 255, 255];
};
const found = {};
for (const each of document.querySelectorAll('p, li, dt, dd, h1 span, h2, th, td, small, .words, .tick, .held, .number, ' +
  '.name, .row-name, .dot, .fault-name, button, label')) {
  if (!each.textContent.trim() || !each.getClientRects().length) continue;
  const a = light(rgb(getComputedStyle(each).color)), b = light(ground(each));
  const sort = each.className && typeof each.className === 'string' ? `.${each.className.split(' ').join('.')}` : each.tagName;
  const owner = each.closest('.operation');
  const name = owner ? `.${[...owner.classList].join('.')} ${sort}` : sort;
  const contrast = (Math.max(a, b) + .05) / (Math.min(a, b) + .05);
  found[name] = Math.min(found[name] || 99, contrast);
}
return JSON.stringify(found);
"""
