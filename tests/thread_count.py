"""How many threads a program has at once, while it runs."""
import os
import pathlib
import subprocess
import time


def crowded_keys(keys: int, rounds: int) -> bytes:
    """Writes of six clients at once to each key, several times."""
    lines = []
    for key in range(keys):
        for turn in range(rounds):
            for kind in ("invoke", "ok"):
                lines += [f"{{:type :{kind}, :process {client}, :f :write, :value [{key} {turn * 6 + client}]}}\n" for client in range(6)]
    return "".join(lines).encode()


def most_threads(command: list[str], given: pathlib.Path) -> int:
    """The most threads that the command was seen to have, with the file as its standard input."""
    with open(given, "rb") as source:
        process = subprocess.Popen(command, stdin=source, stdout=subprocess.DEVNULL, stderr=subprocess.DEVNULL)
    most = 0
    try:
        while process.poll() is None:
            try:
                most = max(most, len(os.listdir(f"/proc/{process.pid}/task")))
            except FileNotFoundError:
                break
            time.sleep(0.001)
    finally:
        process.kill()
        process.wait()
    return most
