#!/usr/bin/env python3
"""Opens the pages of bad keys and of runs in a real browser (headless Chromium, driven by selenium; tests/setup installs both), and does
there what a reader does. Ends with 'N passed, M failed', and where there is no browser with how many cases were skipped.

With words, it runs the cases of these names alone. A folder after --pictures gets a picture of each page, in light and in dark.
"""
from __future__ import annotations

import base64
import functools
import pathlib
import sys
import tempfile
import time
from typing import Callable, Dict, List, Tuple

TOP = pathlib.Path(__file__).resolve().parent.parent
sys.path[:0] = [str(TOP), str(TOP / "tests")]

from browser_driver import (COLUMNS, MIDDLE, OPERATION, SCROLL, SEEN, TOP_OF, WIDER, WORDS,  # noqa: E402
                            Browser, missing)
from case_loop import differing, run_cases  # noqa: E402

from tests.python.made_pages import HOSTILE, MADE, big  # noqa: E402  (it finds the package jepmon)

import browser_runs  # noqa: E402
from jepmon import page  # noqa: E402

SECONDS = 2.0  # of the processor in which a page of 5,000 operations is open
ELEMENTS = 3000  # that a page has at once, whatever its history
FRAME = 0.1  # seconds of the processor a scroll: 13 to 50 ms were seen, by what else the machine did
SCROLLS = 40
CONTRAST = 4.5
WIDTHS = (1200, 400)


@functools.lru_cache(maxsize=None)
def rendered(name: str) -> str:
    return page.render(big() if name == "big" else MADE[name]())


def opened(browser: Browser, name: str, width: int = 1200, dark: bool = False) -> None:
    browser.open(name, rendered(name), width, dark=dark)


def console(browser: Browser) -> List[str]:
    return differing("the console", browser.said(), [])


def no_overlap(browser: Browser, name: str) -> List[str]:
    """No text stands over another: in each view, wherever it is scrolled to, in a wide window and in a narrow one."""
    faults: List[str] = []
    for width in WIDTHS:
        opened(browser, name, width=width)
        for view in range(1 + browser.count("#only")):
            if view:
                browser.ask("document.getElementById('only').click()")
            for part in (None, 0.0, 0.5, 1.0):
                if part is not None:
                    browser.ask(SCROLL, part)
                browser.settle()
                faults += [f"at {width} pixels, view {view}, scrolled {part}: {line}" for line in browser.overlaps()]
            faults += differing(f"the width of the page at {width} pixels", browser.ask(WIDER), False)
    return faults + console(browser)


def contrast(browser: Browser, name: str) -> List[str]:
    """Texts differ from their ground in light and in dark, and the two differ."""
    faults: List[str] = []
    grounds = []
    for dark in (False, True):
        opened(browser, name, dark=dark)
        grounds.append(browser.ask("return getComputedStyle(document.body).backgroundColor"))
        least = 3.0  # of large letters
        faults += [f"dark is {dark}: {sort} has a contrast of {ratio:.2f}" for sort, ratio in browser.contrasts().items()
                   if ratio < (least if "badge" in sort or "sign" in sort else CONTRAST)]
    return faults + differing("the grounds", len(set(grounds)), 2) + console(browser)


def click_keeps(browser: Browser) -> List[str]:
    """Pointing shows an operation's events, a click keeps them, a second one frees them."""
    opened(browser, "register")
    faults: List[str] = []
    browser.point(".operation.fatal .words")
    shown = browser.texts("#details")[0]
    for part in ("read \u2192 21", "client 2", "event 54", "line 55", "event 56",
                 "{:type :ok, :process 2, :f :read, :value [7 21]}"):
        faults += differing(f"that the details have {part}", part in shown, True)
    browser.click(".operation.fatal .words")
    browser.point(".operation.part-of, .operation.read:not(.fatal) .words")
    faults += differing("what was kept", browser.texts("#details b"), ["read \u2192 21"])
    faults += differing("pressed", browser.texts('.operation[aria-pressed="true"] .words'), ["read \u2192 21"])
    browser.click(".operation.fatal .words")
    browser.press("Escape")
    faults += differing("pressed then", browser.count('.operation[aria-pressed="true"]'), 0)
    return faults + console(browser)


def details_of_a_timeout(browser: Browser) -> List[str]:
    """The notes of an event: the time, the error, that it may take place later."""
    opened(browser, "faults")
    browser.ask("document.getElementById('chart').scrollLeft = 0")
    browser.settle()
    browser.click(".operation.info .words")
    shown = browser.texts("#details")[0]
    faults: List[str] = []
    for part in (":error timeout", ":time ", "it timed out", "timed out", "event "):
        faults += differing(f"that the details have {part}", part in shown, True)
    return faults + differing("the mark of it", browser.texts(".operation.info .mark")[:1], ["?"]) + console(browser)


def keyboard(browser: Browser) -> List[str]:
    """Tab comes to the fatal operation, arrow keys go on in time and by lanes, Enter keeps, Escape frees."""
    opened(browser, "register")
    faults = differing("what Tab can reach", browser.count('.operation[tabindex="0"]'), 1)
    for _ in range(12):
        browser.press("Tab")
        if browser.ask("return document.activeElement.classList.contains('operation')"):
            break
    browser.settle()
    faults += differing("what has the focus", browser.ask(WORDS), "read \u2192 21")
    faults += differing("its outline", browser.ask("return getComputedStyle(document.activeElement).outlineStyle"), "solid")
    at = int(browser.ask(f"return {OPERATION}"))
    browser.press("ArrowLeft", "ArrowLeft")
    faults += differing("two to the left", int(browser.ask(f"return {OPERATION}")), at - 2)
    browser.press("ArrowRight")
    faults += differing("one to the right", int(browser.ask(f"return {OPERATION}")), at - 1)
    browser.press("Home")
    faults += differing("the first", int(browser.ask(f"return {OPERATION}")), 0)
    lane = browser.ask(TOP_OF)
    browser.press("ArrowDown")
    faults += differing("that down is lower", browser.ask(TOP_OF) > lane, True)
    browser.press("End")
    faults += differing("the last", int(browser.ask(f"return {OPERATION}")), 39)
    faults += differing("that it is to be seen", browser.ask(SEEN), True)
    browser.press("Enter", "ArrowLeft")
    faults += differing("what is kept", browser.count(".details.kept"), 1)
    faults += differing("bars of scrolling that are not needed", browser.ask(
        "const chart = document.getElementById('chart'); return chart.scrollHeight > chart.clientHeight"), False)
    browser.press("Escape")
    faults += differing("what is kept then", browser.count(".details.kept"), 0)
    faults += differing("names without words", browser.count('.operation:not([aria-label]), .operation:not([role="button"])'), 0)
    return faults + console(browser)


def orders(browser: Browser) -> List[str]:
    """The first end's order is drawn at once, another's on a click or by keys; the bars have dots, in order, from left to right."""
    opened(browser, "register")
    faults = differing("the end that is chosen", browser.texts("tr.chosen .choose"), ["1"])
    first = dots(browser)
    faults += wrong_dots(browser) + differing("that there are dots", len(first) > 3, True)
    browser.click('tr[data-end="6"] .choose')
    faults += differing("the end that is chosen then", browser.texts("tr.chosen .choose"), ["7"])
    faults += wrong_dots(browser) + differing("that the dots differ", dots(browser) != first, True)
    faults += differing("the dot of the fatal operation", browser.count(".dot.wrong"), 1)
    browser.click('tr[data-end="6"] .choose')
    faults += differing("the dots, where no end is chosen", dots(browser), [])
    browser.ask("document.querySelector('tr[data-end=\"2\"] .choose').focus()")
    browser.press("Enter")
    faults += differing("the end that is chosen by a key", browser.texts("tr.chosen .choose"), ["3"])
    browser.ask("document.querySelectorAll('.ends .seek')[1].click()")
    browser.settle()
    faults += differing("what was sought", browser.ask(WORDS), "write 29")
    return faults + console(browser)


def dots(browser: Browser) -> List[Tuple[float, str]]:
    found = browser.ask("return [...document.querySelectorAll('.dot')].map((each) => [each.getBoundingClientRect().left + "
                        "each.getBoundingClientRect().width / 2, each.textContent])")
    return sorted((float(x), str(number)) for x, number in found)


def wrong_dots(browser: Browser) -> List[str]:
    """Dots are numbered from left to right, and each hangs from one bar."""
    numbers = [int(number) for _, number in dots(browser)]
    hanging = browser.ask("""return [...document.querySelectorAll('.dot')].filter((dot) => {
      const a = dot.getBoundingClientRect(), x = (a.left + a.right) / 2;
      return [...document.querySelectorAll('.operation')].filter((bar) => {
        const b = bar.getBoundingClientRect();
        return b.left <= x && x <= b.right && a.top < b.bottom && a.bottom > b.bottom;
      }).length !== 1;
    }).map((dot) => dot.textContent)""")
    return differing("the numbers", numbers, sorted(numbers)) + differing("dots that hang from no bar", hanging, [])


def sentences(browser: Browser) -> List[str]:
    """An event in a sentence leads to its operation, also to one outside of the smallest part."""
    opened(browser, "register")
    browser.click("#only")
    browser.click('.sentences .seek[data-event="51"]')
    faults = differing("what has the focus", browser.ask("return document.activeElement.getAttribute('aria-label')").split(",")[0],
                       "client 3: read \u2192 21")
    alone = browser.ask("return document.getElementById('only').checked")
    return faults + differing("that the smallest part is shown alone", alone, False) + console(browser)


def smallest(browser: Browser) -> List[str]:
    """The switch shows only the smallest illegal part, with the values that the object could hold, and then all operations again."""
    opened(browser, "register")
    count = len(MADE["register"]().smallest) // 2
    faults = differing("operations that fade", browser.count(".operation.other") > 0, True)
    browser.click("#only")
    faults += differing("the operations of the part", browser.count(".operation"), count)
    faults += differing("those that fade", browser.count(".operation.other"), 0)
    numbers = [number for _, number in dots(browser)]
    faults += differing("the numbers of the dots", numbers, [str(number + 1) for number in range(count - 1)])
    faults += differing("what it could hold last", browser.texts(".held.fatal")[0] != "", True)
    browser.click("#only")
    faults += differing("those that fade again", browser.count(".operation.other") > 0, True)
    return faults + console(browser)


def growth(browser: Browser) -> List[str]:
    """The chart of an unknown key: a column for each ok, the higher the more ends there were, and a line at the budget."""
    opened(browser, "unknown")
    columns = browser.ask(COLUMNS)
    heights = [high for _, high in sorted(columns)]
    faults = differing("that there are columns", len(columns) > 3, True) + differing("their heights", heights, sorted(heights))
    faults += differing("the last one", browser.texts(".count.over"), ["> 4096"])
    line, over = browser.box(".budget-line"), browser.box(".count.over")
    faults += differing("that it is above the line", over["top"] < line["top"] < over["bottom"], True)
    faults += differing("ends", browser.count("tr[data-end]"), 0) + differing("dots", browser.count(".dot"), 0)
    opened(browser, "first_ok")
    faults += differing("where there is no other", browser.texts(".count"), ["> 4096"])
    return faults + console(browser)


def no_ends(browser: Browser, name: str, words: str) -> List[str]:
    """Where the walk gave up, or does not agree, the page says so and shows no ends."""
    opened(browser, name)
    faults = differing("what is said", any(words in note for note in browser.texts(".note")), True)
    return faults + differing("ends", browser.count("tr[data-end], .dot, .held, .count"), 0) + console(browser)


def bands(browser: Browser) -> List[str]:
    """Each fault begins and ends between the events where it did."""
    faults: List[str] = []
    opened(browser, "faults", width=4000)
    given = MADE["faults"]()
    browser.ask("document.getElementById('chart').scrollLeft = 0")
    browser.settle()
    ticks: Dict[str, float] = dict(browser.ask("return [...document.querySelectorAll('.tick')].map((each) => [each.textContent, "
                                               "(each.getBoundingClientRect().left + each.getBoundingClientRect().right) / 2])"))
    boxes: Dict[str, List[float]] = dict(browser.ask("""return [...document.querySelectorAll('.fault')].map((each) =>
      [each.textContent, [each.getBoundingClientRect().left, each.getBoundingClientRect().right]])"""))
    for fault in given.faults:
        if fault.text not in boxes:
            faults += differing(f"what held before the first event and is drawn: {fault.text}", fault.begin, 0)
            continue
        moments = {event.index: event.fields["time"] if isinstance(fault, page.Fault) and fault.by == "time" else event.index
                   for event in given.events}
        left, right = boxes[fault.text]
        for moment, place in ((fault.begin, left), (fault.end, right - (2 if fault.end == fault.begin else 0))):
            if moment is None:
                faults += differing(f"that {fault.text} goes on", place > max(ticks.values()), True)
                continue
            before = max(index for index, of_event in moments.items() if of_event < moment)
            after = min(index for index, of_event in moments.items() if of_event >= moment)
            faults += differing(f"that {fault.text} has {place} between {before} and {after}",
                                ticks[str(before)] < place < ticks[str(after)], True)
    return faults + differing("bands over the lanes", browser.count(".band"), len(boxes)) + console(browser)


def hostile(browser: Browser) -> List[str]:
    """Texts of a history are texts on its page, whatever is in them."""
    opened(browser, "hostile")
    faults = differing("elements that came of a text", browser.count("b[onclick], [onclick]"), 0)
    faults += differing("scripts", browser.count("script"), 2)
    browser.click(".operation.fatal .words")
    shown = browser.texts("#details")[0]
    faults += differing("that the error stands in the details", "</script><b onclick=alert(1)>&amp;" in shown, True)
    faults += differing("that a label is cut", "\u2026" in browser.texts(".operation .words")[-1] or len(HOSTILE) > 0, True)
    faults += differing("the title", browser.driver.title.startswith("illegal key 7 index 49: </script><b onclick"), True)
    return faults + console(browser)


def large(browser: Browser) -> List[str]:
    """5,000 operations: open soon, no more elements than others, drawn again soon after each scroll."""
    text = rendered("big")
    browser.worked()
    begin, before = time.monotonic(), browser.worked()
    browser.open("big", text)
    took, loaded = time.monotonic() - begin, browser.worked() - before
    counts = [browser.count("*")]
    before = browser.worked()
    browser.driver.set_script_timeout(120)  # a busy machine draws seldom
    browser.driver.execute_async_script("""
      const done = arguments[0], chart = document.getElementById('chart');
      let step = 0;
      const next = () => {
        if (step++ === arguments[1]) return done();
        chart.scrollLeft = step % 2 ? step * 900 : chart.scrollWidth - step * 5000;
        requestAnimationFrame(() => setTimeout(next));
      };
      next();""".replace("arguments[1]", str(SCROLLS)))
    each = (browser.worked() - before) / SCROLLS
    counts.append(browser.count("*"))
    print(f"  5,000 operations: {len(text.encode()):,} bytes, open after {loaded:.2f} s of the processor ({took:.2f} s by the "
          f"clock), {max(counts)} elements, {1000 * each:.0f} ms of the processor a scroll")
    faults = differing("that it is open in time", loaded < SECONDS, True)
    faults += differing("that elements are few", max(counts) < ELEMENTS, True)
    faults += differing("that scrolling is smooth", each < FRAME, True)
    browser.click("#to-fatal")
    faults += differing("the fatal operation", browser.count(".operation.fatal"), 1)
    box = browser.box("#overview")
    browser.ask("document.getElementById('chart').scrollLeft = 0")
    for kind in ("mousePressed", "mouseReleased"):
        browser.mouse(kind, {**box, "left": box["left"] + box["width"] / 4, "width": 0})
    browser.settle()
    return faults + differing("where the overview leads", abs(browser.ask(MIDDLE) - 0.25) < 0.02, True) + console(browser)


def names_stay(browser: Browser) -> List[str]:
    """The lanes' names and the indices stay where they are, wherever the bars are scrolled to."""
    opened(browser, "many_clients")
    before = [browser.box(".axis")["top"], browser.box(".names")["left"]]
    browser.ask("const chart = document.getElementById('chart'); chart.scrollLeft = 3000; chart.scrollTop = 600")
    browser.settle()
    return differing("where they are", [browser.box(".axis")["top"], browser.box(".names")["left"]], before) + console(browser)


def alone(browser: Browser) -> List[str]:
    """A page takes nothing from elsewhere, and can be read without scripts and on paper."""
    opened(browser, "register")
    taken = browser.ask("return performance.getEntriesByType('resource').map((each) => each.name)")
    faults = differing("what it took from elsewhere", taken, [])
    browser.media(paper=True)
    jumps = browser.ask("return getComputedStyle(document.getElementById('jumps')).display")
    faults += differing("buttons on paper", jumps, "none")
    browser.media()
    browser.ask("document.getElementById('as-text').open = true")
    text = browser.texts("#text")[0]
    faults += differing("the text's first line", text.split("\n")[0], "illegal key 7 index 56")
    faults += differing("its last line", text.split("\n")[-1], "jepmon check register.edn --concurrency 4")
    faults += console(browser)
    browser.open("without", rendered("register"), scripts=False)
    source = browser.driver.page_source
    browser.command("Emulation.setScriptExecutionDisabled", value=False)
    faults += differing("that it says where the text is", "Without scripts" in source, True)
    return faults + differing("that the text is there", "\u255e\u2550 read" in source, True)


def finds_overlap(browser: Browser) -> List[str]:
    """The search for texts over one another finds some, if there are any."""
    opened(browser, "register")
    browser.ask("document.querySelector('.tick').style.left = document.querySelectorAll('.tick')[1].style.left;"
                "document.querySelectorAll('.dot').forEach((dot) => { dot.style.marginTop = '-20px' })")
    return differing("that it finds both", len(browser.overlaps()) > 2, True)


def pictures(browser: Browser, folder: pathlib.Path) -> None:
    """A picture of each page, in light and dark, wide and narrow, for people to look at."""
    folder.mkdir(parents=True, exist_ok=True)
    for name in [*MADE, "big"]:
        for dark in (False, True):
            for width in WIDTHS:
                browser.command("Emulation.setScrollbarsHidden", hidden=width == 400)
                opened(browser, name, width=width, dark=dark)
                shot = browser.command("Page.captureScreenshot", format="png", captureBeyondViewport=width == 400)
                (folder / f"{name}-{width}-{'dark' if dark else 'light'}.png").write_bytes(base64.b64decode(shot["data"]))


def cases(browser: Browser) -> List[Tuple[str, Callable[[], List[str]]]]:
    found: List[Tuple[str, Callable[[], List[str]]]] = []
    found += [(f"no_overlap_{name}", functools.partial(no_overlap, browser, name)) for name in [*MADE, "big"]]
    found += [(f"contrast_{name}", functools.partial(contrast, browser, name))
              for name in ("register", "faults", "unknown", "disagrees", "legal")]
    found += [(case.__name__, functools.partial(case, browser)) for case in (
        click_keeps, details_of_a_timeout, keyboard, orders, sentences, smallest, growth, bands, hostile, large, names_stay, alone,
        finds_overlap)]
    found.append(("gave_up", functools.partial(no_ends, browser, "gave_up", "gave up at event 20")))
    found.append(("disagrees", functools.partial(no_ends, browser, "disagrees", "does not agree with the verdict")))
    return found + browser_runs.cases(browser)


def main(words: List[str]) -> int:
    lacking = missing()
    if lacking:
        print(f"there is no {lacking} here: tests/setup installs it")
        print(f"0 passed, 0 failed, {len(cases(None))} skipped")  # type: ignore[arg-type]
        return 0
    with tempfile.TemporaryDirectory() as folder:
        try:
            browser = Browser(pathlib.Path(folder))
        except Exception as fault:  # it is there, and does not start
            print(f"the browser does not start: {fault}")
            print("0 passed, 1 failed")
            return 1
        try:
            if words[:1] == ["--pictures"] and len(words) == 2:
                pictures(browser, pathlib.Path(words[1]))
                return 0
            return run_cases("browser", cases(browser), words)
        finally:
            browser.quit()


if __name__ == "__main__":
    sys.exit(main(sys.argv[1:]))
