"""Runs of clients on a store in the program: `jepmon run`."""
import itertools
import os
import pathlib
import re
import signal
import subprocess
import time

from .started import PROGRAM, all_shown, limited, ran


ROW = re.compile(r"key (\d+) model ([a-z-]+) budget (\d+) events (\d+) status (alive|dead \d+|over \d+)")


KINDS = ("register", "cas-register", "mutex", "fifo-queue", "set", "unordered-queue", "wide-register", "wide-set")


def run_of(words):
    """A run: its lines, its status, and what went to standard error."""
    done = ran("run", *words.split())
    return done.stdout.decode().splitlines(), done.returncode, done.stderr


def time_used(process):
    """The processor time that it has used, in seconds."""
    fields = pathlib.Path(f"/proc/{process.pid}/stat").read_text().rsplit(")", 1)[1].split()
    return (int(fields[11]) + int(fields[12])) / os.sysconf("SC_CLK_TCK")


def run_stopped(terminal, pause, tries=20):
    """A run of clients that is stopped for so long on its way, standard error a terminal or a pipe: what went to standard error,
    and the last line of the report. A run that a busy machine let end before it was stopped is tried again."""
    words = "run --ops 100000 --keys 64 --concurrency 8".split()
    shown, errors = os.openpty() if terminal else os.pipe()
    process = subprocess.Popen([str(PROGRAM), *words], stdin=subprocess.DEVNULL, stdout=subprocess.PIPE, stderr=errors)
    os.close(errors)
    while time_used(process) < 0.1 and process.poll() is None:
        time.sleep(0.005)
    process.send_signal(signal.SIGSTOP)
    has_ended = process.poll() is not None
    time.sleep(0 if has_ended else pause)
    process.send_signal(signal.SIGCONT)
    written = process.communicate(timeout=60)[0]
    said = all_shown(shown)
    return run_stopped(terminal, pause, tries - 1) if has_ended and tries > 1 else (said, written.splitlines()[-1:])


def run_run_progress():
    """A run of more than a second says on a terminal how many events it has and the verdict so far, from then on. If standard error is not
    a terminal it says nothing."""
    seen, last = run_stopped(True, 1.2)
    counts = [int(count) for count in re.findall(rb"\r(\d+) events, legal so far    ", seen)]
    faults = []
    if last != [b"legal"] or not counts or not all(0 <= count <= 200000 for count in counts):
        faults.append(f"on a terminal it showed {seen[:400]!r} and ended with {last!r}")
    if re.sub(rb"\r\d+ events, legal so far    ", b"", seen) != b"\r\n":
        faults.append(f"on a terminal it also showed something else: {seen[:400]!r}")
    if run_stopped(False, 1.2) != (b"", [b"legal"]):
        faults.append("where standard error is no terminal it showed how far it had come")
    return faults


def run_counts_events():
    """For every seed the 100 operations are invoked and completed: 200 events of key 0."""
    report = ["key 0 model register budget 4096 events 200 status alive", "legal"]
    faults = []
    for seed in range(20):
        got = run_of(f"--seed {seed}")
        if got != (report, 0, b""):
            faults.append(f"seed {seed}: {got!r}")
    return faults


def run_under_faults():
    """A strict store under faults shows nothing that is not linearizable, whatever the seed."""
    faults = []
    for seed in range(20):
        lines, status, errors = run_of(f"--faults on --seed {seed}")
        if (lines[-1:], status, errors) != (["legal"], 0, b""):
            faults.append(f"seed {seed}: {(lines, status, errors)!r}")
    return faults


def run_is_struck():
    """With a budget of 2 a run of one client on a queue in order is legal, as one operation is open at a time. After a lost reply it is
    unknown: so the fault of 60 struck. How many operations that takes the threads decide, and on a busy machine all may be over before: so
    one of twenty runs must be struck, and none without faults."""
    words = "--replicas 1 --concurrency 1 --budget 2 --ops 3000 --model fifo-queue --faults"
    faults, struck = [], False
    for has_faults in ("off", *["on"] * 20):
        lines, status, errors = run_of(f"{words} {has_faults}")
        said = errors.startswith(b"key 0 has more ends than its budget: ") if status == 2 else not errors
        if len(lines) != 2 or not said or "budget 2" not in lines[0] or status not in ((0,) if has_faults == "off" else (0, 2)):
            faults.append(f"with faults {has_faults}: {(lines, status, errors)!r}")
        struck = status == 2
        if struck or faults:
            break
    return faults + ([] if struck or faults else ["no run was struck"])


def told_of_run(lines, kind, events):
    """The faults in the lines of a run that drew keys of this kind. Each line except the last must be of a key, and each key has one line.
    Together the lines must have this number of events."""
    rows = [ROW.fullmatch(line) for line in lines[:-1]]
    if None in rows:
        return [f"a line is none of a key: {lines!r}"]
    keys = [int(row[1]) for row in rows]
    if len(set(keys)) < len(keys) or {(row[2], row[3]) for row in rows} - {(kind, "4096")}:
        return [f"the keys' lines are {lines!r}"]
    told = sum(int(row[4]) for row in rows)
    return [] if told == events else [f"{told} events in place of {events}: {lines!r}"]


def run_of_each_kind():
    """Each kind of object, with faults and without, strict: legal; sloppy: legal or illegal. One client: legal."""
    faults = []
    for kind in KINDS:
        for switch in ("off", "on"):
            for mode, clients, statuses in (("strict", 3, (0,)), ("sloppy", 3, (0, 1)), ("sloppy", 1, (0,))):
                words = f"--model {kind} --faults {switch} --mode {mode} --concurrency {clients} --keys 4 --ops 50 --seed 5"
                lines, status, errors = run_of(words)
                verdict = {0: "legal", 1: "illegal"}.get(status)
                wrong = told_of_run(lines, kind, 100)
                if status not in statuses or errors or lines[-1].split()[0] != verdict:
                    wrong.append(f"ended with {status}, {errors!r}: {lines!r}")
                faults += [f"{words}: {fault}" for fault in wrong]
    return faults


def quarters(block):
    """The four numbers of each quarter round of ChaCha's double round, over a block's sixteen words."""
    for _ in range(block):
        for turn in (0, 1):
            for column in range(4):
                yield column, *(row * 4 + (column + turn * row) % 4 for row in (1, 2, 3))


def words_of(seed):
    """The random words of a seed: those of ChaCha8 by the key that rand_core makes of it."""
    key = []
    for _ in range(8):
        seed = (seed * 6364136223846793005 + 11634580027462260723) % 2**64
        mixed, turn = (seed >> 18 ^ seed) >> 27 & 0xffffffff, seed >> 59
        key.append((mixed >> turn | mixed << (32 - turn) % 32) & 0xffffffff)
    for number in range(2**32):
        begin = [0x61707865, 0x3320646e, 0x79622d32, 0x6b206574, *key, number, 0, 0, 0]
        state = list(begin)
        for a, b, c, d in quarters(4):
            for x, y, z, turn in ((a, b, d, 16), (c, d, b, 12), (a, b, d, 8), (c, d, b, 7)):
                state[x] = state[x] + state[y] & 0xffffffff
                state[z] ^= state[x]
                state[z] = (state[z] << turn | state[z] >> 32 - turn) & 0xffffffff
        yield from (x + y & 0xffffffff for x, y in zip(state, begin))


def run_of_one_client_follows_the_seed():
    """One client's keys follow from the seed: each word gives the next operation's child, two or three of which are a key's."""
    faults = []
    for kind in KINDS:
        children = 3 if kind == "cas-register" else 2
        for seed in range(5):
            drawn = [word % (5 * children) // children for word in itertools.islice(words_of(seed), 40)]
            report = [f"key {key} model {kind} budget 4096 events {2 * drawn.count(key)} status alive"
                      for key in dict.fromkeys(drawn)]
            got = run_of(f"--model {kind} --concurrency 1 --keys 5 --ops 40 --seed {seed}")
            if got != (report + ["legal"], 0, b""):
                faults.append(f"{kind}, seed {seed}: {got!r} in place of {report!r}")
    return faults


def run_sloppy_is_caught():
    """Some sloppy runs under faults, among the seeds 0 to 99, have histories that are not linearizable. How many, and which, follows from
    the order in which the threads ran: one alone would be legal."""
    words = "--mode sloppy --faults on --model fifo-queue --keys 3 --ops 5000 --concurrency 3"
    ended = [run_of(f"{words} --seed {seed}") for seed in range(100)]
    odd = [got for got in ended if got[1] not in (0, 1) or got[2]]
    caught = sum(status == 1 for _, status, _ in ended)
    print(f"  {caught} of 100 sloppy runs ended illegal")
    return [f"a run ended with {got!r}" for got in odd[:3]] + ([] if caught else ["none ended illegal"])


def run_without_memory():
    """A run that outgrows the memory is refused on standard output, in place of a report: status 3."""
    done = ran("run", "--ops", "100000", preexec_fn=limited(48 << 10))
    got = (done.returncode, done.stdout, len(done.stderr.splitlines()))
    return [] if got == (3, b"refused 13 NoMemory\n", 1) else [f"it ended with {got!r}"]


CASES = {
    "run_shows_how_far_it_is": run_run_progress,
    "run_counts_events": run_counts_events,
    "run_under_faults": run_under_faults,
    "run_is_struck": run_is_struck,
    "run_of_each_kind": run_of_each_kind,
    "run_of_one_client_follows_the_seed": run_of_one_client_follows_the_seed,
    "run_sloppy_is_caught": run_sloppy_is_caught,
    "run_without_memory": run_without_memory,
}
