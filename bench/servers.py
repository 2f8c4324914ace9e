#!/usr/bin/env python3
"""Measures jepmon-test on real servers: `servers.py [NAME..]`, where a NAME is a server (all of them unless given), or one trial of it, as
redis/lease or redis/everysec.

Speed is the number of operations a second that were ok, as many as clients can do, and the share that timed out. It is measured for each object
without faults and under all that it bears, and for the first object also under the strikes of each lane alone.

A trial is a planted fault, or a durability (not the first one) under `power`. The script prints how often of --times it was found, and the causes,
with N for each number. The seconds are from the first strike, or from the first operation if nothing struck, to the verdict. `--trial WORDS`
measures these words of jepmon-test alone, as `--trial "./mine.py --nemesis kill"`. --keep keeps the folders of runs that found nothing.
"""
import argparse
import collections
import concurrent.futures
import importlib
import os
import pathlib
import re
import shlex
import shutil
import statistics
import subprocess
import sys
import tempfile

TOP = pathlib.Path(__file__).resolve().parent.parent
sys.path.insert(0, str(TOP / "python"))

from jepmon.testing.cli_options import SERVERS  # noqa: E402
from jepmon.testing.strikes.known import STRIKES  # noqa: E402

TIME = re.compile(r":time ([0-9]+)\}?$")
RATE = re.compile(r"^([0-9,]+) operations a second were ok, ([0-9.]+) %", re.M)
WORD = re.compile(r"\b(LOST or STALE|LOST|STALE|DIRTY|DIVERGED|EARLIER)\b")
STRUCK = ("none", "all", "kill,pause", "cut,partition,slow", "loss,reorder,corrupt", "power,tear", "bump,strobe", "client-pause,client-crash")


def kind_of(server):
    return getattr(importlib.import_module(f"jepmon.testing.servers.{server}"), SERVERS[server])


def ran(words, room):
    command = [sys.executable, "-m", "jepmon", "test", *words, "--out", str(room), "--min-ok", "1"]
    return subprocess.run(command, stdin=subprocess.DEVNULL, stdout=subprocess.PIPE, stderr=subprocess.PIPE, universal_newlines=True,
                          env={**os.environ, "PYTHONPATH": str(TOP / "python")})


# --- Speed ---


def borne(names, kind):
    """Those of these strikes that the server can have."""
    return ",".join(name for name in names.split(",") if name not in kind.cannot and (name not in STRIKES or STRIKES[name].nodes <= kind.size))


def speeds(server, seconds, rounds):
    """The median of some rounds, in each of which all strikes have their turn."""
    kind = kind_of(server)
    for number, model in enumerate(kind.objects):
        struck = list(dict.fromkeys(filter(None, (borne(names, kind) for names in (STRUCK if number == 0 else STRUCK[:2])))))
        runs = [(nemesis, speed(server, model, nemesis, seconds)) for _ in range(rounds) for nemesis in struck]
        for nemesis in struck:
            said = [(rate, late, verdict) for name, (rate, late, verdict) in runs if name == nemesis]
            rates = sorted(rate for rate, _, _ in said)
            late = statistics.median(late for _, late, _ in said)
            verdicts = ", ".join(sorted({verdict for _, _, verdict in said}))
            print(f"| {server}, {model} | {nemesis} | {statistics.median(rates):,.0f} | {rates[0]:,.0f}, {rates[-1]:,.0f} | {late:.1f} % | {verdicts} |",
                  flush=True)


def speed(server, model, nemesis, seconds):
    """Operations a second that were ok, the percentage that timed out, and the verdict."""
    with tempfile.TemporaryDirectory() as room:
        one = ran([server, "--object", model, "--nemesis", nemesis, "--time", str(seconds), "--rate", "0"], room)
    found = RATE.search(one.stdout)
    if found is None:
        return 0.0, 0.0, one.stderr.splitlines()[-1]
    return float(found[1].replace(",", "")), float(found[2]), one.stdout.splitlines()[-1]


# --- What is found ---


def trials(server):
    """The words of each, by its name."""
    kind = kind_of(server)
    counts = server == "beanstalkd"  # what is lost is counted at the end
    found = {f"{server}/{plant}": [server, "--inject-bug", plant, "--time", "40" if counts or plant == "early" else "120"] for plant in kind.plants}
    for name in list(kind.durabilities)[1:]:
        found[f"{server}/{name}"] = [server, "--durability", name, "--nemesis", "power", "--nodes", "1", "--time", "40" if counts else "60"]
    return found


def seconds_to_verdict(folder):
    """From the first strike, or the first operation, to the last event."""
    times = [(int(found[1]), ":begin-fault" in line) for path in sorted(folder.glob("latest/part-*/history.edn"))
             for line in path.read_text().splitlines() for found in [TIME.search(line)] if found]
    struck = [time for time, is_fault in times if is_fault]
    events = [time for time, is_fault in times if not is_fault]
    return (events[-1] - min(struck[:1] or events[:1])) / 1e9


def found_by(name, words, seed, kept):
    """The seconds that one run took, and the cause; None for both where it found nothing."""
    room = kept / name.replace("/", "-") / str(seed)
    shutil.rmtree(room, ignore_errors=True)
    room.mkdir(parents=True)
    one = ran([*words, "--seed", str(seed)], room)
    (room / "said").write_text(one.stdout + one.stderr)
    if one.returncode != 1:
        return None, None
    verdict = one.stdout.splitlines()[-1]
    cause = one.stderr.splitlines()[0] if verdict.startswith("illegal") else verdict
    word = WORD.search(one.stderr)
    took = seconds_to_verdict(room)
    shutil.rmtree(room)
    return took, re.sub("[0-9]+", "N", cause) + (f" {word[1]}." if word else "")


def measured(name, words, times, at_once, kept):
    with concurrent.futures.ThreadPoolExecutor(at_once) as pool:
        runs = list(pool.map(lambda seed: found_by(name, words, seed, kept), range(1, times + 1)))
    took = sorted(seconds for seconds, _ in runs if seconds is not None)
    causes = collections.Counter(cause for _, cause in runs if cause is not None)
    said = "; ".join(f"{count} times: {cause}" for cause, count in causes.most_common())
    middle = f"{statistics.median(took):.1f} | {took[0]:.1f}, {took[-1]:.1f}" if took else "- | -"
    print(f"| {name} | {len(took)} of {times} | {middle} | {said} |", flush=True)


def main():
    parser = argparse.ArgumentParser(description=__doc__, formatter_class=argparse.RawDescriptionHelpFormatter)
    parser.add_argument("names", nargs="*", metavar="NAME", help=", ".join(SERVERS))
    parser.add_argument("--trial", action="append", default=[], metavar="WORDS")
    parser.add_argument("--only", choices=("speed", "trials"))
    parser.add_argument("--seconds", type=int, default=20, help="of a run that measures speed")
    parser.add_argument("--rounds", type=int, default=1, help="of these runs")
    parser.add_argument("--times", type=int, default=10, help="runs of each trial")
    parser.add_argument("--at-once", type=int, default=1, help="of these runs")
    parser.add_argument("--keep", type=pathlib.Path, default=pathlib.Path(tempfile.gettempdir(), "jepmon-found"))
    given = parser.parse_args()
    for words in given.trial:
        measured(words, shlex.split(words), given.times, given.at_once, given.keep)
    for server in SERVERS if not given.trial else ():
        wanted = [name for name in given.names if name.split("/")[0] == server]
        if given.only != "trials" and (not given.names or server in wanted):
            speeds(server, given.seconds, given.rounds)
        for name, words in trials(server).items():
            if given.only != "speed" and (not given.names or server in wanted or name in wanted):
                measured(name, words, given.times, given.at_once, given.keep)


if __name__ == "__main__":
    main()
