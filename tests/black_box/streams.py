"""Scripts whose replies are awaited one by one, and those whose input or output breaks."""
import os
import resource
import select
import socket
import struct
import subprocess
import tempfile
import time

from case_loop import given, read, words

from .started import FOLDERS, PROGRAM, SCRIPT, STALE_READ, all_shown, limited, ran, refused, session


def ask(process, line, limit=10.0):
    """Sends a line, and waits for the reply within the limit."""
    process.stdin.write(line)
    process.stdin.flush()
    ready, _, _ = select.select([process.stdout], [], [], limit)
    return os.read(process.stdout.fileno(), 65536) if ready else b"(no reply)"


def run_live():
    """Each reply reaches the reader of standard output before the next line is sent."""
    with session(*words(SCRIPT / "args")) as process:
        for line, want in zip(read(SCRIPT / "stdin").splitlines(True), read(SCRIPT / "stdout").splitlines(True)):
            got = ask(process, line)
            if got != want:
                return [f"{line!r} was answered by {got!r} in place of {want!r}"]
        process.stdin.close()
        more, status = process.stdout.read(), process.wait(timeout=10)
    return (["more came at the end"] if more else []) + (["status was not 0"] if status else [])


def run_strict():
    """A strict script ends at its first refusal though nobody closes its input, and answers no line behind it."""
    with session("script", "--strict", stderr=subprocess.PIPE) as process:
        got = ask(process, b"[:verdict]\n") + ask(process, b"[:rewind 1]\n[:verdict]\n")
        status, rest = process.wait(timeout=10), process.stdout.read()
    return [] if (got + rest, status) == (b"legal\nrefused 8 NoSuchIndex\n", 3) else [f"it answered {got + rest!r} and ended with {status}"]


def on_terminals(*words):
    """Runs it with standard input and standard error a terminal, at which Ctrl-D is typed: the status, and what it shows."""
    shown, terminal = os.openpty()
    process = subprocess.Popen([str(PROGRAM), *words], stdin=terminal, stdout=subprocess.PIPE, stderr=terminal)
    os.close(terminal)
    os.write(shown, b"[:verdict]\n\x04")
    said = process.communicate(timeout=60)[0]
    return process.returncode, said, all_shown(shown)


def run_typed():
    """A user who types the events gets a hint; a check of a file gives none."""
    status, said, shown = on_terminals("script")
    faults = [] if (status, said) == (0, b"legal\n") and b"reading events from the terminal" in shown else [f"script: {(status, said, shown)!r}"]
    status, said, shown = on_terminals("check", str(STALE_READ))
    return faults + ([f"check: {shown!r}"] if b"reading events" in shown else [])


def run_half_a_line():
    """Whole lines are answered though half a line stands behind them in one piece, and that one when the rest of it comes."""
    lines, wants = (read(SCRIPT / name).splitlines(True) for name in ("stdin", "stdout"))
    half = len(lines[-1]) // 2
    with session(*words(SCRIPT / "args")) as process:
        first = ask(process, b"".join(lines[:-1]) + lines[-1][:half])
        while len(first) < len(b"".join(wants[:-1])) and b"(" not in first:
            first += ask(process, b"")
        got = first + ask(process, lines[-1][half:])
    return [] if got == b"".join(wants) else [f"it answered {got!r} in place of {wants!r}"]


def run_failing_reader():
    """Standard input that can't be read: refused 20, status 3."""
    folder = os.open("/", os.O_RDONLY)
    try:
        done = ran("script", stdin=folder)
    finally:
        os.close(folder)
    got = done.returncode, refused(done.stderr)
    return [] if got == (3, b"refused 20 ReadFailed\n") else [f"it ended with {got!r}"]


def run_failing_writer():
    """Standard output that takes no byte: refused 21, status 3."""
    with open("/dev/full", "wb") as full:
        done = ran("script", input=read(SCRIPT / "stdin"), stdout=full)
    got = done.returncode, refused(done.stderr)
    return [] if got == (3, b"refused 21 WriteFailed\n") else [f"it ended with {got!r}"]


def run_script_without_memory():
    """A history that outgrows the memory: a verdict for each event that was taken, refused 13, status 3."""
    done = ran("script", input=given(FOLDERS / "full_history" / "stdin"), preexec_fn=limited(64 << 10))
    taken = len(done.stdout) // len(b"legal\n")
    got = (done.returncode, refused(done.stderr), done.stdout == b"legal\n" * taken, 0 < taken < 2**20)
    return [] if got == (3, b"refused 13 NoMemory\n", True, True) else [f"after {taken} events it ended with {got!r}"]


def run_narrow_writer():
    """Standard output that takes ten bytes and then fails: a beginning of the replies, refused 21, status 3."""
    with tempfile.TemporaryFile() as narrow:
        done = ran("script", input=read(SCRIPT / "stdin"), stdout=narrow, restore_signals=False,
                   preexec_fn=lambda: resource.setrlimit(resource.RLIMIT_FSIZE, (10, 10)))
        narrow.seek(0)
        got = (done.returncode, narrow.read(), refused(done.stderr))
    return [] if got == (3, b"legal\nlega", b"refused 21 WriteFailed\n") else [f"it ended with {got!r}"]


def run_broken_reader():
    """Standard input that breaks off within the third line: the replies to two lines, refused 20, status 3."""
    with socket.create_server(("127.0.0.1", 0)) as server:
        client = socket.create_connection(server.getsockname())
        served, _ = server.accept()
    with served:
        process = subprocess.Popen([str(PROGRAM), "script"], stdin=served, stdout=subprocess.PIPE, stderr=subprocess.PIPE)
    with client:
        lines = read(SCRIPT / "stdin").splitlines(True)
        client.sendall(lines[0] + lines[1] + lines[2][:30])
        replies = process.stdout.readline() + process.stdout.readline()
        client.setsockopt(socket.SOL_SOCKET, socket.SO_LINGER, struct.pack("ii", 1, 0))
    more, errors = process.communicate(timeout=10)
    got = (process.returncode, replies + more, refused(errors))
    return [] if got == (3, b"legal\nlegal\n", b"refused 20 ReadFailed\n") else [f"it ended with {got!r}"]


def run_cut_off_at_each_byte():
    """A write and a read, cut off at each byte: whole lines are legal, and a last one that lacks its brace is refused 11."""
    lines = read(SCRIPT / "stdin")
    faults = []
    for n in range(len(lines) + 1):
        whole, _, last = lines[:n].rpartition(b"\n")
        want = b"legal\n" * lines[:n].count(b"\n")
        if last:
            want += b"legal\n" if last.endswith(b"}") else b"refused 11 Unreadable 0\n"
        done = ran("script", input=lines[:n])
        if (done.returncode, done.stdout) != (0, want):
            faults.append(f"cut off after {n} bytes it ended with {done.returncode}, {done.stdout!r}")
    return faults


def run_start():
    """Starting the program costs milliseconds: the best of five starts takes less than 200."""
    best = min(start_time() for _ in range(5))
    return [] if best < 0.2 else [f"the best start took {best:.3f} s"]


def start_time():
    begin = time.monotonic()
    ran("script", check=True)
    return time.monotonic() - begin


CASES = {
    "replies_are_live": run_live,
    "half_a_line_holds_none_back": run_half_a_line,
    "strict_script_ends_at_a_refusal": run_strict,
    "who_types_is_told": run_typed,
    "starts_in_milliseconds": run_start,
    "cut_off_at_each_byte": run_cut_off_at_each_byte,
    "failing_reader": run_failing_reader,
    "reader_breaks_off": run_broken_reader,
    "failing_writer": run_failing_writer,
    "writer_takes_ten_bytes": run_narrow_writer,
    "script_without_memory": run_script_without_memory,
}
