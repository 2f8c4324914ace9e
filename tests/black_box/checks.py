"""Checks of a history: by workers, on a full device, and how far they have come."""
import os
import pathlib
import subprocess
import tempfile
import time

from thread_count import crowded_keys, most_threads

from .started import PROGRAM, STALE_READ, all_shown, ran


def run_full_check():
    """A failed write is reported, whatever the verdict: refused 21, status 3."""
    faults = []
    for words in (["check", str(STALE_READ)], ["check", "/dev/null"], ["run"], ["--help"], ["--version"],
                  ["script", "--help"]):
        with open("/dev/full", "wb") as full:
            done = ran(*words, stdout=full)
        if done.returncode != 3 or b"refused 21 WriteFailed\n" not in done.stderr:
            faults.append(f"{words} ended with {done.returncode}, {done.stderr!r}")
    return faults


def many_keys():
    """Ten keys, on each of which a process of its own writes and reads five values, all at once: 20 events a key. Key 3 reads in
    the end what nobody has written."""
    each = []
    for key in range(10):
        each.append([])
        for turn in range(5):
            found = 99 if (key, turn) == (3, 4) else turn
            for kind, name, part in (("invoke", "write", turn), ("ok", "write", turn), ("invoke", "read", "nil"), ("ok", "read", found)):
                each[key].append(f"{{:type :{kind}, :process {key}, :f :{name}, :value [{key} {part}]}}\n")
    return "".join(line for row in zip(*each) for line in row).encode()


def run_workers():
    """The report of a check is the same by any number of workers."""
    stands = [f"key {key} model register budget 4096 events 20 status {'dead 193' if key == 3 else 'alive'}\n" for key in range(10)]
    want = ("".join(stands) + "illegal key 3 index 193\n").encode()
    faults = []
    for workers in (1, 2, 3, 10, 64):
        done = ran("check", "/dev/stdin", "--concurrency", "10", "--workers", str(workers), input=many_keys())
        got = (done.returncode, done.stdout, done.stderr)
        if got != (1, want, b""):
            faults.append(f"by {workers} workers it ended with {got!r}")
    return faults


def run_by_workers():
    """A check has as many threads as it has workers."""
    faults = []
    with tempfile.TemporaryDirectory() as folder:
        history = pathlib.Path(folder) / "history.edn"
        history.write_bytes(crowded_keys(keys=64, rounds=40))
        for workers in (1, 4):
            command = [str(PROGRAM), "check", "/dev/stdin", "--concurrency", "6", "--workers", str(workers)]
            # A short look may miss one that is soon done.
            seen = max(most_threads(command, history) for _ in range(3))
            if seen != workers:
                faults.append(f"by {workers} workers it had {seen} threads")
    return faults


def run_slow_check(terminal, pause):
    """Checks a file whose second half comes after the pause, standard error a terminal or a pipe: what went to standard
    output and to standard error, and the status."""
    text = STALE_READ.read_bytes()
    shown, errors = os.openpty() if terminal else os.pipe()
    with tempfile.TemporaryDirectory() as folder:
        path = pathlib.Path(folder) / "history.edn"
        os.mkfifo(path)
        process = subprocess.Popen([str(PROGRAM), "check", str(path)], stdin=subprocess.DEVNULL, stdout=subprocess.PIPE,
                                   stderr=errors)
        os.close(errors)
        with open(path, "wb", buffering=0) as history:
            history.write(text[:len(text) // 2])
            time.sleep(pause)
            history.write(text[len(text) // 2:])
        written = process.communicate(timeout=10)[0]
    return written, all_shown(shown), process.returncode


def run_progress():
    """A check of more than a second says on a terminal how far it has come, from then on: as it reads, and as it judges. A shorter one says
    nothing, nor does one whose standard error is not a terminal. Standard output has the report alone."""
    report = b"key 7 model register budget 4096 events 6 status dead 5\nillegal key 7 index 5\n"
    faults = []
    shown = b"\r511 bytes were read\rjudging 6 events by 1 worker\r\n"
    for terminal, pause, want in ((True, 1.2, shown), (True, 0, b""), (False, 1.2, b"")):
        got = run_slow_check(terminal, pause)
        if got != (report, want, 1):
            faults.append(f"on a {'terminal' if terminal else 'pipe'}, with a pause of {pause} s, it ended with {got!r}")
    return faults


CASES = {
    "check_on_a_full_device": run_full_check,
    "check_shows_how_far_it_is": run_progress,
    "workers_print_the_same": run_workers,
    "check_hands_its_workers_on": run_by_workers,
}
