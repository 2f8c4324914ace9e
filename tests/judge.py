#!/usr/bin/env python3
"""Runs jepmon-judge and jepmon-from-json on recorded histories, with the built program. Ends with 'N passed, M failed'.

A case is a folder of tests/judge: args, the words, one a line; and stdout, stderr and status (0 where left out). They must agree to the
byte, except for a line `...` of stderr, which stands for any lines. The other files of the folder are input. The case runs in a copy, in
which make.py, if there is one, makes more; the file stdin comes on standard input. With words, it runs the cases of these names alone.
"""
import functools
import os
import pathlib
import random
import re
import shutil
import signal
import subprocess
import sys
import tempfile
import time
from typing import Dict, List, Optional

import case_loop as histories
import forked
import program
from case_loop import LIMIT, Case, by_model, differing, read, run_cases, words

TOP = pathlib.Path(__file__).resolve().parent.parent
sys.path.insert(0, str(TOP / "python"))

from jepmon.forms import own  # noqa: E402

CASES = TOP / "tests" / "judge"
PROGRAM = str(program.PROGRAM)
JUDGE = [sys.executable, "-m", "jepmon", "judge"]
FROM_JSON = [sys.executable, "-m", "jepmon", "from-json"]
TOLD = ("args", "stdout", "stderr", "status", "make.py", "tool")
STALE = str(TOP / "examples" / "stale-read.edn")
REFUSED = ("no_event", "discards_in_one_another")  # cases of jepmon check that are refused here: no event, discards that are too deep
VERDICT = b"key 7 model register budget 4096 events 6 status dead 5\nillegal key 7 index 5\n"
Ran = "subprocess.CompletedProcess[bytes]"


def environment(jepmon: str = PROGRAM) -> Dict[str, str]:
    kept = {name: value for name, value in os.environ.items() if name not in ("COLUMNS", "PYTHONPATH")}
    return dict(kept, JEPMON=jepmon, PYTHONPATH=str(TOP / "python"), PYTHONIOENCODING="utf-8", **program.COMPILED)


def ran(arguments: List[str], text: bytes = b"", jepmon: str = PROGRAM, folder: Optional[str] = None,
        tool: Optional[List[str]] = None) -> "subprocess.CompletedProcess[bytes]":
    got = forked.ran((tool or JUDGE)[1:] + arguments, text, folder, environment(jepmon))
    got.stdout, got.stderr = by_model(got.stdout), by_model(got.stderr)
    return got


def run_case(case: pathlib.Path) -> List[str]:
    with tempfile.TemporaryDirectory() as folder:
        room = pathlib.Path(folder, "room")
        shutil.copytree(case, room, symlinks=True, ignore=lambda _, names: [name for name in names if name in TOLD])
        if (case / "make.py").exists():
            forked.ran([str(case / "make.py")], folder=str(room)).check_returncode()
        tool = FROM_JSON if words(case / "tool") == ["from-json"] else JUDGE
        got = ran(words(case / "args"), read(room / "stdin"), folder=str(room), tool=tool)
        return (differing("standard output", got.stdout, read(case / "stdout"))
                + ([] if fits(read(case / "stderr"), got.stderr) else differing("standard error", got.stderr, read(case / "stderr")))
                + differing("status", got.returncode, int(read(case / "status", b"0"))))


def fits(shown: bytes, got: bytes) -> bool:
    """Whether these lines came. A line of three dots stands for any lines."""
    lines = (b"(?s:.*)" if line == b"...\n" else re.escape(line) for line in shown.splitlines(True))
    return re.fullmatch(b"".join(lines), got) is not None


# --- Histories of other tests ---


def run_cases_of_check() -> List[str]:
    """The result is that of jepmon check of the same history with the same options."""
    faults, count = [], 0
    for case in sorted((TOP / "tests" / "cases").iterdir()) + sorted((TOP / "tests" / "explain").iterdir()):
        given = words(case / "args")
        if case.parent.name == "explain":
            history, want = histories.given(case / "history.edn"), read(case / "stdout").splitlines(True)[-1:]
        elif given[:1] == ["check"] and len(given) > 1 and (TOP / given[1]).is_file() and not (case / "memory").exists():
            history, want, given = read(TOP / given[1]), read(case / "stdout").splitlines(True), given[2:]
        else:
            continue
        if case.name in REFUSED:
            continue
        if want and want[-1].startswith((b"legal", b"illegal", b"unknown")) and history.strip():
            count += 1
            got = ran(["-", "--no-cause"] + with_defaults(given), history)
            faults += differing(f"what came of {case.name}", (got.stdout.splitlines(True)[-len(want):], got.returncode),
                                (want, int(read(case / "status", b"0"))))
    return faults + differing("whether there were some", count > 20, True)


def with_defaults(options: List[str]) -> List[str]:
    """The options of a check with what jepmon takes where they say nothing. A key over its budget stays so."""
    return (options + ["--decide-seconds", "0", "--min-ok", "0", "--nil-is-unknown", "--by-ends"]
            + ([] if "--model" in options else ["--model", "register"])
            + ([] if "--concurrency" in options else ["--concurrency", "2"]))


def run_own_form() -> List[str]:
    """The program accepts each text that counts as jepmon's own form, after any change."""
    draw, faults, count = random.Random(1), [], 0
    texts = [read(path).decode() for path in sorted((TOP / "examples").glob("*.edn")) if path.name != "jepsen-register.edn"]
    for _ in range(60):
        text = changed(draw, draw.choice(texts))
        found = own.read(text)
        threads = own.concurrency_of(found.facts) if found is not None else None
        if found is not None and threads is not None:
            count += 1
            check = subprocess.run([PROGRAM, "check", "/dev/stdin", "--concurrency", str(threads)], input=found.text.encode(),
                                   stdout=subprocess.PIPE, timeout=LIMIT)
            faults += differing(f"whether it refuses {text!r}", check.stdout.startswith(b"refused"), False)
    return faults + differing("whether there were some", count > 6, True)


def changed(draw: random.Random, text: str) -> str:
    """The text with a line less, a line twice, or some characters in place of others."""
    lines = text.splitlines(True)
    place = draw.randrange(len(lines))
    how = draw.randrange(6)
    if how == 0:
        del lines[place]
    elif how == 1:
        lines.insert(place, draw.choice(lines))
    elif how > 2:
        at = draw.randrange(len(lines[place]))
        lines[place] = lines[place][:at] + draw.choice(("nil", "1", "[", "]", "#{1 2}", " ", ":", "-", "00", "")) + lines[place][at + 1:]
    return "".join(lines)


# --- The program and the outputs ---


def last_lines(got: "subprocess.CompletedProcess[bytes]") -> "tuple[int, bytes, bytes]":
    return got.returncode, got.stdout, b"".join(got.stderr.splitlines(True)[-1:])


def run_no_program() -> List[str]:
    """A missing program and a missing verdict are reported in one line."""
    faults = []
    for other, why in (("/nowhere/jepmon", b"judge: /nowhere/jepmon can't be run: "),
                         (str(TOP), b"judge: "),
                         ("/bin/true", b"judge: /bin/true gave no verdict: it printed nothing, and its status was 0; is it jepmon?"),
                         ("/bin/echo", b"judge: /bin/echo gave no verdict: its last line was 'check /dev/stdin --concurrency 2 ")):
        status, output, last = last_lines(ran([STALE], jepmon=other))
        faults += differing(f"what came with {other}", (status, output, last.startswith(why)), (3, b"", True))
    return faults


def run_killed_program() -> List[str]:
    """A program that is killed in its work."""
    with tempfile.TemporaryDirectory() as folder:
        other = pathlib.Path(folder, "jepmon")
        other.write_text("#!/bin/sh\nkill -9 $$\n")
        other.chmod(0o755)
        status, output, last = last_lines(ran([STALE], jepmon=str(other)))
    return differing("what came", (status, output, b"gave no verdict: it printed nothing, and its status was -9" in last), (3, b"", True))


def run_interrupted() -> List[str]:
    """Ctrl-C while the program works: 130, one line, no verdict, no file and no folder."""
    with tempfile.TemporaryDirectory() as folder:
        other = pathlib.Path(folder, "jepmon")
        other.write_text("#!/bin/sh\nexec sleep 30\n")
        other.chmod(0o755)
        out = pathlib.Path(folder, "out")
        child = subprocess.Popen(JUDGE + [STALE, "--out", str(out)], stdout=subprocess.PIPE, stderr=subprocess.PIPE,
                                 env=environment(str(other)), start_new_session=True)
        assert child.stderr is not None
        for line in child.stderr:
            if b"judged by" in line:
                break
        time.sleep(0.2)
        os.killpg(child.pid, signal.SIGINT)
        output, error = child.communicate(timeout=LIMIT)
        there = out.exists()
    return differing("what came", (child.returncode, output, error, there), (130, b"", b"judge: interrupted\n", False))


def run_full_device() -> List[str]:
    """A verdict that can't be written is none."""
    with open("/dev/full", "wb") as full:
        got = subprocess.run(JUDGE + [STALE], stdout=full, stderr=subprocess.PIPE, timeout=LIMIT, env=environment())
    want = b"judge: the output can't be written: No space left on device\n"
    return differing("what came", (got.returncode, got.stderr.splitlines(True)[-1]), (3, want))


def run_closed_pipe() -> List[str]:
    """The reader of the output ends before it has read everything."""
    with tempfile.TemporaryDirectory() as folder:
        lines = "".join(f"{{:type :{kind}, :process 0, :f :write, :value [{key} 1]}}\n" for key in range(8000) for kind in ("invoke", "ok"))
        pathlib.Path(folder, "many.edn").write_text(lines)
        child = subprocess.Popen(JUDGE + ["many.edn", "--min-ok", "0"], stdout=subprocess.PIPE, stderr=subprocess.PIPE, env=environment(), cwd=folder)
        assert child.stdout is not None and child.stderr is not None
        first = child.stdout.readline()
        child.stdout.close()
        error = child.stderr.read()
        child.stderr.close()
        status = child.wait(timeout=LIMIT)
    return (differing("its first line", by_model(first), b"key 0 model register budget 4096 events 2 status alive\n")
            + differing("its status", status, 3) + differing("a traceback", b"Traceback" in error or b"Error" in error, False))


def run_page() -> List[str]:
    """A page is written whole, over an earlier one, and over nothing else."""
    with tempfile.TemporaryDirectory() as folder:
        page = pathlib.Path(folder, "page.html")
        faults = []
        for _ in range(2):
            got = ran([STALE, "--html", str(page)])
            faults += differing("what came", (got.returncode, got.stdout), (1, VERDICT))
            faults += differing("the page", page.read_text().startswith("<!"), True)
        got = ran([STALE, "--html", "page.html"], folder=folder)
        faults += differing("how it is named", b"judge: the page is page.html\n" in got.stderr, True)
        faults += differing("what is there", os.listdir(folder), ["page.html"])
        got = ran([STALE, "--html", "nowhere/page.html"], folder=folder)
        faults += differing("how one that can't be written is named", last_lines(got),
                            (3, b"", b"judge: nowhere/page.html: it can't be written: No such file or directory\n"))
        for name, why in (("nowhere/page.html", "No such file or directory"), (".", "this is a folder; name a file"),
                          ("history.edn", "this file is there, and is not a page: it is not overwritten")):
            pathlib.Path(folder, "history.edn").write_text("{}")
            status, output, last = last_lines(ran([STALE, "--html", os.path.join(folder, name)]))
            faults += differing(f"what came of {name}", (status, output, why in last.decode()), (3, b"", True))
        status, output, last = last_lines(ran([STALE, "--html", "/dev/full"]))
        faults += differing("what came of a full disk", (status, output, last),
                            (3, VERDICT, b"judge: /dev/full can't be written: No space left on device\n"))
    return faults


def run_out() -> List[str]:
    """A folder has all that came of a history, and judges it again."""
    with tempfile.TemporaryDirectory() as folder:
        out = pathlib.Path(folder, "new", "out")
        got = ran([STALE, "--out", str(out)])
        faults = differing("what came", (got.returncode, got.stdout), (1, VERDICT))
        faults += differing("its files", sorted(os.listdir(out)),
                            ["cause.txt", "history.edn", "judge-again", "page.html", "report.txt", "verdict.txt"])
        faults += differing("the report", by_model((out / "report.txt").read_bytes()), VERDICT)
        faults += differing("the verdict", (out / "verdict.txt").read_bytes(), b"illegal key 7 index 5\n")
        again = subprocess.run([str(out / "judge-again")], stdout=subprocess.PIPE, timeout=LIMIT, env=environment())
        faults += differing("what it judges again", (again.returncode, by_model(again.stdout)), (1, VERDICT))
        got = ran([str(out)])
        faults += differing("what comes of the folder", (got.returncode, got.stdout), (1, VERDICT))
        got = ran([str(TOP / "examples" / "write-then-read.edn"), "--out", str(out)])
        faults += differing("what came next", (got.returncode, sorted(os.listdir(out))),
                            (0, ["history.edn", "judge-again", "report.txt", "verdict.txt"]))
        status, output, last = last_lines(ran([STALE, "--out", str(out.parent)]))
        faults += differing("what came of another folder", (status, output, b"this folder has other files" in last), (3, b"", True))
    return faults


def run_many_events() -> List[str]:
    """2,000 events of JSON take seconds, not minutes."""
    row = '{{"client": {0}, "op": "put", "key": "k{1}", "value": "v{2}", "call": {2}, "return": {3}}}\n'
    text = "".join(row.format(i % 5, i % 50, i, i + 3) for i in range(1_000))
    got = ran(["--no-cause", "--min-ok", "0"], text.encode())
    return differing("the verdict", (got.returncode, got.stdout.splitlines()[-1:]), (0, [b"legal"]))


def all_cases() -> List[Case]:
    """Each case by its name."""
    cases = [(case.name, functools.partial(run_case, case)) for case in sorted(CASES.iterdir()) if case.is_dir()]
    return cases + [("cases_of_check", run_cases_of_check), ("own_form", run_own_form), ("no_program", run_no_program), ("a_killed_program", run_killed_program), ("interrupted", run_interrupted),
                    ("a_full_device", run_full_device), ("a_closed_pipe", run_closed_pipe), ("a_page", run_page),
                    ("a_folder_for_results", run_out), ("many_events", run_many_events)]


if __name__ == "__main__":
    signal.signal(signal.SIGINT, signal.default_int_handler)  # it may be ignored here, as for a job in the background, and so in children
    sys.exit(run_cases("judge", all_cases(), sys.argv[1:]))
