"""The cases of tests/cases, each a folder (see tests/run.py), and those whose input comes byte by byte."""
import os
import subprocess
import tempfile

from case_loop import given, read, words

from .started import FOLDERS, PROGRAM, TOP, all_shown, limited, ran


def all_folders():
    return [case for case in sorted(FOLDERS.iterdir()) if case.is_dir()]


def run_on_terminal(command, case):
    """Runs it with standard error a terminal: how it ran, and in place of standard error what the terminal shows."""
    shown, errors = os.openpty()
    done = ran(*command, input=given(case / "stdin"), stderr=errors, timeout=120, cwd=TOP)
    os.close(errors)
    done.stderr = all_shown(shown).replace(b"\r\n", b"\n")
    return done


def run_case(case):
    command = words(case / "args")
    if (case / "terminal").exists():
        done = run_on_terminal(command, case)
    else:
        limit = limited(int(read(case / "memory"))) if (case / "memory").exists() else None
        done = ran(*command, input=given(case / "stdin"), timeout=120, cwd=TOP, preexec_fn=limit)
    faults = []
    if done.stdout != given(case / "stdout"):
        faults.append(f"standard output was {done.stdout[:400]!r}")
    if done.returncode != int(read(case / "status", b"0")):
        faults.append(f"status was {done.returncode}")
    errors = done.stderr.split(b"\n")
    if (case / "stderr").exists():
        for line in read(case / "stderr").rstrip(b"\n").split(b"\n"):
            if line not in errors:
                faults.append(f"standard error lacks {line!r}: {done.stderr[:400]!r}")
    elif (case / "terminal").exists():
        if done.stderr != read(case / "terminal"):
            faults.append(f"the terminal showed {done.stderr[:400]!r}")
    elif done.stderr:
        faults.append(f"standard error was {done.stderr[:400]!r}")
    return faults


def by_bytes(command, text):
    """Runs it with its input one byte a read: a pipe made so hands over one write at a time. Gives the status and the output."""
    out, into = os.pipe2(os.O_DIRECT)
    with tempfile.TemporaryFile() as written:
        process = subprocess.Popen(command, stdin=out, stdout=written, stderr=subprocess.DEVNULL, cwd=TOP)
        os.close(out)
        try:
            for i in range(len(text)):
                os.write(into, text[i:i + 1])
        except BrokenPipeError:  # it ended before it had read all
            pass
        os.close(into)
        status = process.wait(timeout=120)
        written.seek(0)
        return status, written.read()


def is_script(case):
    """Whether a case is of the command `script`, with an input that is short enough to be given byte by byte."""
    plain = not any((case / name).exists() for name in ("memory", "terminal"))
    return plain and words(case / "args")[:1] in ([], ["script"]) and 0 < len(given(case / "stdin")) < 200_000


def run_any_cutting():
    """Each case of `script` gives the same, status and replies, where its input comes byte by byte."""
    faults, tried = [], 0
    for case in all_folders():
        if is_script(case):
            got = by_bytes([str(PROGRAM)] + words(case / "args"), given(case / "stdin"))
            want = int(read(case / "status", b"0")), given(case / "stdout")
            tried += 1
            if got != want:
                faults.append(f"{case.name}: it ended with {got[0]}, {got[1][:400]!r}")
    return faults if tried >= 50 else [f"only {tried} cases were tried"]


def cases():
    """Each case by its name."""
    return [*((case.name, lambda case=case: run_case(case)) for case in all_folders()), ("any_cutting", run_any_cutting)]
