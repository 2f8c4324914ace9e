#!/usr/bin/env python3
"""Whether a long session stays as small as it was: `soak.py [MINUTES] [--rate EVENTS]`, an hour unless said.

One `script` gets, line by line and each time after its reply, histories of five clients on eight keys, of every kind of object in turn, all
linearizable. Every so often the history is rewound, by some events or to its beginning, and told on from there. Each verdict must be legal.
Every minute it prints the lines so far and the resident memory, which goes up and down with the length and the kind of the history. At the
end it prints the most of the first five minutes and the most of the last five. It ends with 1 if a reply was another or the memory grew by
more than a twentieth.
"""
import argparse
import pathlib
import random
import subprocess
import sys
import time

sys.path.insert(0, str(pathlib.Path(__file__).resolve().parent))
from program import PROGRAM
from workload import MODELS, lines

CLIENTS, KEYS, EVENTS = 5, 8, 20_000
AT_ONCE = 200  # so many lines are written before their replies are read


class Session:
    """One script, and the number of lines that it got."""

    def __init__(self):
        words = [str(PROGRAM), "script", "--concurrency", str(CLIENTS)]
        self.program = subprocess.Popen(words, stdin=subprocess.PIPE, stdout=subprocess.PIPE)
        self.told = 0

    def tell(self, texts):
        """Tells these lines, and gives back what was not answered by `legal`."""
        self.program.stdin.write("".join(text + "\n" for text in texts).encode())
        self.program.stdin.flush()
        self.told += len(texts)
        replies = [self.program.stdout.readline().decode().rstrip("\n") for _ in texts]
        return [(text, reply) for text, reply in zip(texts, replies) if reply != "legal"]

    def resident(self):
        """The memory that is resident, in KiB."""
        status = pathlib.Path(f"/proc/{self.program.pid}/status").read_text()
        return int(status.split("VmRSS:")[1].split()[0])


def commands(draw):
    """An endless history: lists of lines, each a prefix of the next."""
    seed = 0
    while True:
        for model in MODELS:
            seed += 1
            events = list(lines(EVENTS, CLIENTS, seed, model, keys=KEYS))
            yield ["[:rewind 0]"] + [f"[:model {key} :{model}]" for key in range(KEYS)]
            at, again = 0, 6
            while at < len(events):
                yield events[at:at + AT_ONCE]
                at += AT_ONCE
                if again and draw.random() < 0.05:
                    at, again = draw.randrange(min(at, len(events))), again - 1
                    yield [f"[:rewind {at}]"]


def soak(minutes, rate):
    session, begin, kept, faults = Session(), time.monotonic(), {}, []
    for texts in commands(random.Random(1)):
        faults = session.tell(texts)
        minute = int((time.monotonic() - begin) / 60)
        if minute not in kept:
            kept[minute] = session.resident()
            print(f"minute {minute}: {session.told:,} lines, {kept[minute]:,} KiB", flush=True)
        if faults or minute >= minutes:
            break
        time.sleep(max(0.0, session.told / rate - (time.monotonic() - begin)))
    session.program.stdin.close()
    status = session.program.wait()
    for text, reply in faults[:5]:
        print(f"{text} was answered by {reply}")
    of_minutes = list(kept.values())
    early, last = max(of_minutes[:6]), max(of_minutes[-5:])
    print(f"{session.told:,} lines in {minutes} minutes; at most {early:,} KiB in the first five minutes, {last:,} in the last five: "
          f"{100 * last / early - 100:+.1f} %; status {status}")
    return 1 if faults or status or last > early * 1.05 else 0


def main():
    parser = argparse.ArgumentParser(description="Whether a long session stays as small as it was.")
    parser.add_argument("minutes", nargs="?", type=int, default=60)
    parser.add_argument("--rate", type=float, default=1e9, help="lines a second, at most")
    given = parser.parse_args()
    return soak(given.minutes, given.rate)


if __name__ == "__main__":
    sys.exit(main())
