#!/usr/bin/env python3
"""Judges histories in shards, as users do: jepmon-judge --jobs, jepmon-shards with GNU parallel, and a Dask cluster of which a worker is
killed. Ends with 'N passed, M failed', or 'N passed, M failed, K skipped' where an engine is not installed (tests/setup installs it).
With words, it runs the cases of these names alone.
"""
import contextlib
import functools
import os
import resource
import shutil
import signal
import subprocess
import sys
import time
from typing import List

from case_loop import Case, differing, run_cases
from shard_engines import (has_dask, run_a_worker_killed, run_no_worker_left, run_parallel, run_program_fails_there,
                           run_scheduler_lost)
from shard_runs import LIMIT, TOP, checked, environment, kind_of_register, line, room, script, several, tool, written


# --- jepmon-judge ---


def run_same_report() -> List[str]:
    """The report and the status of a check, whatever number of processes; the cause beside it."""
    faults: List[str] = []
    with room() as folder:
        path = several(folder / "history.edn")
        for jobs in ("1", "3"):
            status, output, error = tool("judge", str(path), "--jobs", jobs)
            faults += differing(f"what came of {jobs}", (status, output), checked(path))
            faults += differing("the cause", "No operation wrote 123456" in error or "123456" in error.split("illegal")[-1], True)
            faults += differing("the events", "60,002 events, concurrency 2, 500 keys" in error, True)
        with open(path) as file:
            ran = subprocess.run([sys.executable, "-m", "jepmon", "judge", "-", "--jobs", "2", "--no-cause"], stdin=file,
                                 stdout=subprocess.PIPE, stderr=subprocess.DEVNULL, universal_newlines=True, timeout=LIMIT,
                                 env=environment())
        faults += differing("what came of standard input", (ran.returncode, ran.stdout), checked(path))
        ran_gzip = subprocess.run(["gzip", "-k", str(path)], timeout=LIMIT)
        status, output, _ = tool("judge", str(path) + ".gz", "--jobs", "1", "--no-cause")
        faults += differing("what came of gzip", (ran_gzip.returncode, status, output), (0, *checked(path)))
    return faults


def run_refusals() -> List[str]:
    """A history that a check refuses is refused in shards as it is without them, by the line of the file."""
    faults: List[str] = []
    good = written(0, 3)
    with room() as folder:
        path = folder / "history.edn"
        for text in (good + "{:type :ok", good + line("ok", 0, "write", 0, 1), good + line("invoke", 9, "read", 0, "nil"),
                     good + line("invoke", 0, "write", 0, 1) + line("ok", 0, "write", 0, 2), good + "{:type :invoke, :process 0}\n",
                     good + line("invoke", 0, "read", 0, 7) + good):
            path.write_text(text)
            words = ["judge", str(path), "--concurrency", "2", "--model", "register"]
            whole, parts = tool(*words), tool(*words, "--jobs", "1")
            faults += differing(f"the status of {text[len(good):]!r}", (whole[0], checked(path)[0]), (3, 3))
            faults += differing(f"what came of {text[len(good):]!r}", parts[:2], whole[:2])
            faults += differing(f"the reason of {text[len(good):]!r}", parts[2].splitlines()[-1:], whole[2].splitlines()[-1:])
        for words, why in ((["no/such/file"], "No such file"), ([str(folder)], "history"), ([str(path), "--jobs", "0"], "--jobs"),
                           ([str(path), "--temporary", str(folder / "nowhere")], "nowhere")):
            status, output, error = tool("judge", *words, *([] if "--jobs" in words else ["--jobs", "1"]))
            seen = status, output if why == "No such file" else "", why in error or "refused" in output, error.count("Traceback")
            faults += differing(f"what came of {words}", seen, (3, "", True, 0))
    return faults


def run_beyond() -> List[str]:
    """A history that one check does not take is judged in shards by itself: more events, more keys, a key with more events."""
    faults: List[str] = []
    with room() as folder:
        path = folder / "long.edn"
        hot = "".join(line(kind, 0, "write", 5, number % 10) for number in range(5000) for kind in ("invoke", "ok"))
        others = [line(kind, 1, "write", 100_000 + key, 1) for key in range(66_000) for kind in ("invoke", "ok")]
        with open(path, "w") as file:
            file.writelines(hot for _ in range(105))  # 1,050,000 events of key 5
            file.writelines(others)
        status, output, error = tool("judge", str(path))
        lines = output.splitlines()
        faults += differing("the verdict", (status, lines[-1]), (2, "unknown key 5 index 1048576"))
        faults += differing("the hot key", lines[0], f"key 5 model {kind_of_register()} budget 4096 events 1050000 status full 1048576")
        faults += differing("keys", len(lines), 66_002)
        faults += differing("what was said", "more than 1,048,576 events, which are too many for one check; it is judged in" in error, True)
        faults += differing("what was not judged", "key 5 has more than 1,048,576 events, and is judged up to event 1048576" in error, True)
        path.write_text("".join([*others, line("invoke", 1, "read", 165_999, "nil"), line("ok", 1, "read", 165_999, 2)]))
        status, output, error = tool("judge", str(path), "--out", str(folder / "out"), "--html", str(folder / "page.html"))
        faults += differing("the second verdict", (status, output.splitlines()[-1]), (1, "illegal key 165999 index 132001"))
        faults += differing("the cause", "read 2 from key 165999" in error, True)
        faults += differing("the line of the event", "line 132002" in error, True)
        faults += differing("the page", "165999" in (folder / "page.html").read_text(), True)
        faults += differing("the files", sorted(os.listdir(folder / "out")),
                            ["cause.txt", "history.edn", "judge-again", "page.html", "report.txt", "verdict.txt"])
        faults += differing("the report", (folder / "out" / "report.txt").read_text() == output, True)
    return faults


def run_many_clients() -> List[str]:
    """Two hundred clients; and a key of which more than 64 operations are open at once."""
    faults: List[str] = []
    with room() as folder:
        path = folder / "wide.edn"
        held = "".join(line(kind, 0, "write", 50, value) for value in (9, 8) for kind in ("invoke", "ok"))
        opened = held + "".join(line("invoke", client, "read", client % 100, "nil") for client in range(200))
        path.write_text(opened + "".join(line("ok", client, "read", client % 100, "nil" if client != 150 else 9) for client in range(200)))
        status, output, error = tool("judge", str(path))
        faults += differing("the verdict", (status, output.splitlines()[-1]), (1, "illegal key 50 index 354"))
        faults += differing("the client", ("concurrency 200" in error, "Client 150 read 9 from key 50" in error), (True, True))
        path.write_text("".join(line(kind, client, "read", 3, "nil") for kind in ("invoke", "ok") for client in range(70)))
        status, output, error = tool("judge", str(path), "--jobs", "1")
        faults += differing("a wide key", (status, output), (2, f"key 3 model {kind_of_register()} budget 4096 events 140 status wide 64\n"
                                                             "unknown key 3 index 64\n"))
        faults += differing("what is said of it", "key 3 has more than 64 operations open at once" in error, True)
    return faults


def heed_interrupts() -> None:
    """A shell has what it runs in the background ignore Ctrl-C."""
    signal.signal(signal.SIGINT, signal.SIG_DFL)


def run_interrupted() -> List[str]:
    """Ctrl-C and the end by a signal: no verdict, and no file is left."""
    faults: List[str] = []
    for number, wanted in ((signal.SIGINT, 130), (signal.SIGTERM, 143)):
        with room() as folder:
            path, scratch = several(folder / "history.edn"), folder / "scratch"
            scratch.mkdir()
            slow = script(folder / "jepmon", f"touch {folder}/began; exec sleep 600\n")
            child = subprocess.Popen([sys.executable, "-m", "jepmon", "judge", str(path), "--jobs", "2", "--temporary", str(scratch)],
                                     stdout=subprocess.PIPE, stderr=subprocess.PIPE, env=environment(slow), start_new_session=True,
                                     preexec_fn=heed_interrupts)
            began = time.monotonic()
            while not (folder / "began").exists() and child.poll() is None and time.monotonic() < began + LIMIT:
                time.sleep(0.05)
            os.kill(child.pid, number)
            output, error = child.communicate(timeout=LIMIT)
            faults += differing(f"what came of signal {number}", (child.returncode, output, b"Traceback" in error, os.listdir(scratch)),
                                (wanted, b"", False, []))
    return faults


def run_interrupted_split() -> List[str]:
    """A split that is ended by a signal leaves nothing, neither in its folder nor elsewhere."""
    faults: List[str] = []
    for number, wanted in ((signal.SIGINT, 130), (signal.SIGTERM, 143)):
        with room() as folder:
            pipe, scratch, shards = folder / "pipe", folder / "scratch", folder / "shards"
            os.mkfifo(pipe)
            scratch.mkdir()
            words = ["shards", "split", str(pipe), str(shards), "--temporary", str(scratch)]
            child = subprocess.Popen([sys.executable, "-m", "jepmon", *words], stdout=subprocess.PIPE, stderr=subprocess.PIPE,
                                     env=environment(), preexec_fn=heed_interrupts)
            with open(pipe, "w") as writer:  # which it has opened then; the history is not at its end
                writer.write(written(0, 12_000))
                writer.flush()  # it has read the beginning then, since a pipe holds less
                began = time.monotonic()
                while child.poll() is None and time.monotonic() < began + LIMIT:  # one that comes just before a read is seen after it
                    os.kill(child.pid, number)
                    with contextlib.suppress(subprocess.TimeoutExpired):
                        child.wait(5)  # a second signal while Python ends would kill it
                output, error = child.communicate(timeout=LIMIT)
            left = sorted(os.listdir(folder)), os.listdir(scratch)
            faults += differing(f"what came of signal {number}", (child.returncode, output, b"Traceback" in error, left),
                                (wanted, b"", False, (["pipe", "scratch"], [])))
    return faults


def run_killed_program() -> List[str]:
    """A program that is killed, one that prints nothing, and one that lies: an error, and no verdict."""
    faults: List[str] = []
    with room() as folder:
        path = several(folder / "history.edn", illegal=False)
        for text in ("kill -9 $$\n", "exit 0\n", "echo legal\n"):
            for jobs in ("1", "2"):
                status, output, error = tool("judge", str(path), "--jobs", jobs, jepmon=script(folder / "jepmon", text))
                faults += differing(f"what came of {text!r}", (status, output, error.count("Traceback")), (3, "", 0))
    return faults


def run_full_disk() -> List[str]:
    """No room for temporary files, and none for the report."""
    def little() -> None:
        resource.setrlimit(resource.RLIMIT_FSIZE, (100_000, 100_000))
    faults: List[str] = []
    with room() as folder:
        path, scratch = several(folder / "history.edn"), folder / "scratch"
        scratch.mkdir()
        status, output, error = tool("judge", str(path), "--jobs", "1", "--temporary", str(scratch), preexec_fn=little)
        faults += differing("what came", (status, output, "File too large" in error, os.listdir(scratch)), (3, "", True, []))
        with open("/dev/full", "wb") as full:
            ran = subprocess.run([sys.executable, "-m", "jepmon", "judge", str(path), "--jobs", "1"], stdout=full, stderr=subprocess.PIPE,
                                 timeout=LIMIT, env=environment())
        faults += differing("a full device", (ran.returncode, b"No space left on device" in ran.stderr), (3, True))
    return faults


def run_several_kinds() -> List[str]:
    """A history of several kinds: each key is judged by its own model, as it is where the history is judged whole."""
    faults: List[str] = []
    both = ("invoke", "ok")
    with room() as folder:
        path, shards = folder / "history.edn", folder / "shards"
        text = written(0, 2) + "".join(line(kind, 0, "acquire", 1, "nil") for kind in both) + "".join(
            line(kind, 0, "enqueue", 2, 7) for kind in both) + "".join(line(kind, 1, "add", 3, 5) for kind in both)
        text += line("invoke", 1, "read", 3, "nil") + line("ok", 1, "read", 3, "#{5}")
        for end in ("", line("invoke", 1, "dequeue", 2, "nil") + line("ok", 1, "dequeue", 2, 8)):
            path.write_text(text + end)
            whole = tool("judge", str(path), "--no-cause")[:2]
            faults += differing("the keys", whole[1].count("\n"), 5)
            faults += differing("what came of it in shards", tool("judge", str(path), "--jobs", "1", "--no-cause")[:2], whole)
            shutil.rmtree(shards, ignore_errors=True)
            tool("shards", "split", str(path), str(shards))
            tool("shards", "judge", *sorted(str(file) for file in shards.glob("*.edn")))
            faults += differing("what came of files", tool("shards", "join", str(shards))[:2], whole)
        status, output, error = tool("judge", str(path), "--jobs", "1")
        faults += differing("the cause", (status, "dequeued 8" in error or "8" in error.split("illegal")[-1]), (1, True))
        path.write_text(text + "".join(line(kind, 1, "write", 3, 5) for kind in both))
        status, output, error = tool("judge", str(path), "--jobs", "1")
        faults += differing("no object", (status, output, "key 3 has add and read and write, which no object" in error), (3, "", True))
        path.write_text(text + line("invoke", 1, "read", 3, "nil") + line("ok", 1, "read", 3, 5))
        status, output, error = tool("judge", str(path), "--jobs", "1")
        faults += differing("a counter", (status, output, "this is a counter" in error), (3, "", True))
    return faults


def run_jepsen_form() -> List[str]:
    """A history in Jepsen's form, judged whole and in shards; one with more operations open than a check takes is so by itself."""
    faults: List[str] = []
    example = TOP / "examples" / "jepsen-register.edn"
    for words in ([], ["--nil-is-absent"]):
        whole, parts = (tool("judge", str(example), "--no-cause", *words, *more) for more in ([], ["--jobs", "1"]))
        faults += differing(f"what came of {words}", parts[:2], whole[:2])
    with room() as folder:
        path = folder / "history.edn"
        opened = [f"{{:type :invoke, :f :read, :value [key-{client % 20} nil], :process {client}, :time {client}}}\n"
                  for client in range(70)]
        path.write_text("".join(opened) + "{:type :ok, :f :read, :value [key-6 9], :process 6, :time 77, :error \"a, b\"}\n")
        status, output, error = tool("judge", str(path), "--html", str(folder / "page.html"), "--model", "register", "--outcome", "error=ok", "--initial", "7")
        faults += differing("the verdict", (status, output.splitlines()[-1:]), (1, ["illegal key 6 index 110"]))
        for text in ("70 operations are open at once", "it is judged in shards", "Client 6 read 9 from key key-6", "line 71"):
            faults += differing(f"whether it says {text!r}", text in error, True)
        path.write_text("".join(opened) + "{:type :ok, :f :read, :value [key-6 9], :process 6}\n{:type :ok, :f")
        status, output, error = tool("judge", str(path), "--jobs", "1")
        faults += differing("a file that is cut off", (status, output, "line 72" in error, error.count("\n")), (3, "", True, 1))
    return faults


def main(names: List[str]) -> int:
    cases: List[Case] = [(name, functools.partial(run)) for name, run in (
        ("same_report", run_same_report), ("refusals", run_refusals), ("beyond", run_beyond), ("many_clients", run_many_clients),
        ("several_kinds", run_several_kinds), ("jepsen_form", run_jepsen_form),
        ("interrupted", run_interrupted), ("interrupted_split", run_interrupted_split), ("killed_program", run_killed_program),
        ("full_disk", run_full_disk))]
    skipped = 0
    for is_there, what, more in ((shutil.which("parallel") is not None, "GNU parallel", [("parallel", run_parallel)]),
                                 (has_dask(), "python3-distributed", [
                                     ("a_worker_killed", run_a_worker_killed), ("no_worker_left", run_no_worker_left),
                                     ("scheduler_lost", run_scheduler_lost), ("program_fails_there", run_program_fails_there)])):
        if is_there:
            cases += more
        else:
            skipped += len(more)
            print(f"skipped: {', '.join(name for name, _ in more)}: {what} is not installed")
    return run_cases("shards", cases, names, skipped)


if __name__ == "__main__":
    sys.exit(main(sys.argv[1:]))
