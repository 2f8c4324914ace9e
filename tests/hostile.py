#!/usr/bin/env python3
"""Tells the built program what no client would write, and compares what it says with the grammar (tests/grammar.py).

  lines     random bytes, bytes that texts are made of, and commands in which some bytes were changed, each as a line of `script`:
            the program refuses an invalid line with its place, several elements by 5, and does not answer a gap alone
  files     the same with line feeds in them, each as a file of `check`
  long      a line of many bytes, and one that is read after it; the memory that it took
  keys      events on keys without a number: the program refuses each, and the memory stays

usage: hostile.py [--lines N] [--commands N] [--files N] [--megabytes N] [--keys N] [--seed N]. Prints each part with its time, and
the peak of memory of the last two; the last line is how many passed and failed.
"""
import argparse
import pathlib
import random
import subprocess
import sys
import tempfile
import threading
import time

import grammar
from program import PROGRAM

PIECES = [piece.encode() for piece in (
    "nil", "true", "false", "0", "-1", "+7", "12", "9223372036854775807", "-9223372036854775808", ":a", ":type", ":x-1?", '"a"', '"\\n"',
    '"', "\\", "[", "]", "{", "}", "#{", "#_", ";", " ", ",", "\t", "#", ":", "-", "é", "'", "(", "/", "1.5")]
COMMANDS = [command.encode() for command in (
    "{:type :invoke, :process 0, :f :write, :value [7 1]}", "{:process 1, :type :ok, :f :read, :value [7 nil], :index 3}",
    "{:type :info, :process 0, :f :cas, :value [7 [1 2]], :time 12, :error \"timed out\"}", "[:verdict]", "[:rewind 0]", "[:model 7 :set]",
    "{:type :ok, :process 1, :f :read, :value [7 #{1 2 3}]}", "[:budget 7 4096]")]


def of_bytes(draw):
    return draw.randbytes(draw.randrange(13))


def of_pieces(draw):
    return b"".join(draw.choices(PIECES, k=draw.randrange(9)))


def changed(draw):
    """A command in which some bytes are others, are left out, or come twice."""
    command = bytearray(draw.choice(COMMANDS))
    for _ in range(draw.randrange(1, 4)):
        at = draw.randrange(len(command))
        command[at:at + draw.randrange(3)] = draw.choice((b"", draw.randbytes(1), draw.choice(PIECES), command[at:at + 3]))
    return bytes(command)


def reply_to(line):
    """The begin of the reply to a line: None if there is none."""
    elements = grammar.elements_of(line)
    if elements is None:
        return b"refused 11 Unreadable %d\n" % grammar.longest_front(line)
    if not elements:
        return None
    return b"refused 5 " if len(elements) > 1 or elements[0][0] not in ("map", "vector") else b""


def asked(pieces, replies):
    """The replies of one script to these pieces, and its peak of memory in MiB while it waits for more."""
    program = subprocess.Popen([str(PROGRAM), "script"], stdin=subprocess.PIPE, stdout=subprocess.PIPE, stderr=subprocess.DEVNULL)

    def write():
        for piece in pieces:
            program.stdin.write(piece)
        program.stdin.flush()

    writer = threading.Thread(target=write)
    writer.start()
    given = [program.stdout.readline() for _ in range(replies)]
    writer.join()
    peak = int(pathlib.Path(f"/proc/{program.pid}/status").read_text().split("VmHWM:")[1].split()[0])
    program.stdin.close()
    program.wait()
    return given, peak / 1024


def answers(lines):
    """The replies of one script to these lines."""
    with tempfile.TemporaryFile() as given:
        given.writelines(line + b"\n" for line in lines)
        given.seek(0)
        ran = subprocess.run([str(PROGRAM), "script"], stdin=given, stdout=subprocess.PIPE, stderr=subprocess.PIPE)
    return ran.stdout.splitlines(keepends=True)


def differing(lines):
    """The lines that were answered otherwise than the grammar says."""
    replies, faults = iter(answers(lines)), []
    for line in lines:
        want = reply_to(line)
        got = b"" if want is None else next(replies, b"nothing")
        if not got.startswith(want or b"") or (want == b"" and got.startswith(b"refused 11 ")):
            faults.append(f"{line!r} was answered by {got!r}, and not by {want!r}")
            if len(faults) == 5:
                return faults
    return faults + [f"{reply!r} answers no line" for reply in list(replies)[:1]]


def random_lines(makers, count, draw):
    """So many lines, told in turns of some thousand. There is no line feed in any of them."""
    faults = []
    while count > 0 and not faults:
        lines = [draw.choice(makers)(draw).replace(b"\n", b" ") for _ in range(min(count, 50_000))]
        faults = differing(lines)
        count -= len(lines)
    return faults


def random_files(count, draw):
    faults = []
    with tempfile.NamedTemporaryFile() as file:
        for _ in range(count):
            text = draw.choice((of_bytes, of_pieces, changed))(draw) + draw.choice((b"", b"\n; \n", b"\n")) + of_pieces(draw)
            pathlib.Path(file.name).write_bytes(text)
            got = subprocess.run([str(PROGRAM), "check", file.name], stdout=subprocess.PIPE, stderr=subprocess.PIPE).stdout
            elements = grammar.elements_of(text)
            if elements is None:
                is_well = got == b"refused 11 Unreadable %d\n" % grammar.longest_front(text)
            else:
                is_well = not got.startswith(b"refused 11 ") and (got == b"legal\n") >= (not elements)
            if not is_well:
                faults.append(f"{text!r} comes to {got!r}")
    return faults[:5]


def long_line(megabytes):
    """A line of this many bytes: the program refuses it as too long, and answers the next one."""
    replies, peak = asked([b"[" * (1 << 20)] * megabytes + [b"\n[:verdict]\n"], 2)
    wanted = [b"refused 22 TooLong\n", b"legal\n"]
    return ([] if replies == wanted else [f"it was answered by {replies!r}"]), peak


def refused_keys(count):
    lines = [b"{:type :invoke, :process 0, :f :read, :value [%d nil]}\n" % (65_536 + key) for key in range(count)]
    replies, peak = asked(lines, count)
    return [f"one was answered by {reply!r}" for reply in replies if not reply.startswith(b"refused ")][:1], peak


def main():
    parser = argparse.ArgumentParser(description="Tells the built program what no client would write.")
    for name, usual in (("lines", 20_000), ("commands", 5_000), ("files", 200), ("megabytes", 2), ("keys", 5_000), ("seed", 1)):
        parser.add_argument(f"--{name}", type=int, default=usual)
    given, failed = parser.parse_args(), 0
    draw = random.Random(given.seed)
    parts = {
        f"{given.lines:,} lines of random bytes": lambda: (random_lines((of_bytes, of_pieces), given.lines, draw), 0),
        f"{given.commands:,} changed commands": lambda: (random_lines((changed,), given.commands, draw), 0),
        f"{given.files:,} files": lambda: (random_files(given.files, draw), 0),
        f"a line of {given.megabytes:,} MiB": lambda: long_line(given.megabytes),
        f"{given.keys:,} keys that there are none of": lambda: refused_keys(given.keys),
    }
    for name, tried in parts.items():
        begin = time.monotonic()
        faults, peak = tried()
        memory = f", {peak:.1f} MiB" if peak else ""
        print(f"{name}: {'FAILED' if faults else 'ok'}, {time.monotonic() - begin:.1f} s{memory}")
        for fault in faults:
            print(f"  {fault}")
        failed += bool(faults)
    print(f"{len(parts) - failed} passed, {failed} failed")
    return 1 if failed else 0


if __name__ == "__main__":
    sys.exit(main())
