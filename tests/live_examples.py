"""The examples in Python, run as a user would."""
import os
import subprocess
import sys
import tempfile

from live_base import PROGRAM, TOP


def example(name: str, *words: str, **environment: str) -> "subprocess.CompletedProcess[str]":
    return subprocess.run([sys.executable, str(TOP / "examples" / "python" / name), *words], stdout=subprocess.PIPE,
                          stderr=subprocess.PIPE, universal_newlines=True, timeout=300,
                          env={**os.environ, "JEPMON": PROGRAM, **environment})


def the_examples() -> None:
    """The example finds the stale read; those that need a redis-server are asked for their help, and say where there is none."""
    ran = example("stale_read.py")
    assert ran.returncode == 1 and "\njepmon.Illegal: illegal key " in ran.stderr, ran
    ran = example("stale_read.py", JEPMON="/nowhere/jepmon")
    assert ran.returncode == 3 and "No such file or directory: '/nowhere/jepmon'" in ran.stderr, ran
    ran = example("queue_drain.py")
    assert ran.returncode == 1 and ran.stdout.endswith(": legal, and 8 messages are lost\n") and not ran.stderr, ran
    ran = example("queue_drain.py", "--lose", "0")
    assert (ran.returncode, ran.stdout) == (0, "sent 400, received 400, timed out 0: legal, and 0 messages are lost\n"), ran
    assert example("queue_drain.py", "--jepmon", "/nowhere/jepmon").returncode == 3
    with tempfile.TemporaryDirectory() as out:
        ran = example("long_run.py", "--seconds", "2", "--events", "500", "--out", out)
        assert ran.returncode == 0 and ran.stdout.endswith(" programs: legal\n") and not ran.stderr, ran
        ran = example("long_run.py", "--stale", "100", "--events", "500", "--out", out)
        assert ran.returncode == 1 and " programs: illegal key " in ran.stdout and not ran.stderr, ran
        assert example("long_run.py", "--jepmon", "/nowhere/jepmon", "--out", out).returncode == 3
    for name in ("redis_stale.py", "redis_lock.py", "redis_loss.py"):
        ran = example(name, "--help")
        assert ran.returncode == 0 and "--jepmon" in ran.stdout and not ran.stderr, ran
        ran = example(name, PATH="/nowhere")
        assert ran.returncode == 3 and ran.stderr.endswith(f"{name}: redis-server is not installed\n"), ran
        ran = example(name, "--jepmon", "/nowhere/jepmon")
        assert ran.returncode == 3 and "No such file or directory: '/nowhere/jepmon'" in ran.stderr, ran


TESTS = [the_examples]
