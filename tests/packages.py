#!/usr/bin/env python3
"""Builds the packages of packages/ and tries them: the Debian package in a folder of its own, its manual pages and completions, the
container's recipe, and the steps of the workflows. Ends with 'N passed, M failed', or 'N passed, M failed, K skipped'.

A case is skipped if a tool that it needs is not installed (tests/setup). With words, it runs the cases of these names alone. An image is built only
if a container engine is at work, which no package can ensure: without one the case `engine` is left out, and a line says so.
"""
import atexit
import functools
import hashlib
import os
import pathlib
import pty
import re
import select
import shutil
import subprocess
import sys
import tempfile
import time
from typing import Callable, Dict, List, Tuple

from case_loop import Case, differing, run_cases

TOP = pathlib.Path(__file__).resolve().parent.parent
LIMIT = 300  # seconds for one command, on a machine that is busy
ENGINES = ("podman", "docker", "buildah")
# Tags of lintian that are accepted, since the license and the maintainer are the owner's to add.
OF_THE_OWNER = {"copyright-without-copyright-notice", "bogus-mail-host", "bogus-mail-host-in-debian-changelog"}
ENVIRONMENT: Dict[str, str] = {name: value for name, value in os.environ.items() if not name.startswith(("JEPMON", "PYTHON", "DEB"))}
ENVIRONMENT.update(LC_ALL="C.UTF-8", PYTHONDONTWRITEBYTECODE="1")
STALE = TOP / "examples" / "stale-read.edn"


def run(words: List[str], folder: pathlib.Path = TOP, **more: str) -> "subprocess.CompletedProcess[str]":
    return subprocess.run(words, cwd=folder, env={**ENVIRONMENT, **more}, stdin=subprocess.DEVNULL, stdout=subprocess.PIPE,
                          stderr=subprocess.PIPE, timeout=LIMIT, universal_newlines=True)


@functools.lru_cache(maxsize=None)
def room() -> pathlib.Path:
    folder = pathlib.Path(tempfile.mkdtemp(prefix="jepmon-packages."))
    atexit.register(shutil.rmtree, folder, ignore_errors=True)
    return folder


# --- The Debian package ---


def build(name: str) -> pathlib.Path:
    ran = run([str(TOP / "packages" / "build-deb"), str(room() / name)])
    if ran.returncode != 0:
        raise RuntimeError(f"build-deb has ended with {ran.returncode}: {ran.stderr}")
    return next((room() / name).glob("jepmon_*_amd64.deb"))


@functools.lru_cache(maxsize=None)
def package() -> pathlib.Path:
    return build("first")


@functools.lru_cache(maxsize=None)
def installed() -> pathlib.Path:
    """A folder in which dpkg has installed the package. Without root, dpkg-deb unpacks the package into it."""
    root = room() / "root"
    for part in ("info", "updates", "triggers"):
        (root / "var/lib/dpkg" / part).mkdir(parents=True)
    (root / "var/lib/dpkg/status").touch()
    words = ["dpkg", f"--root={root}", "--force-depends", "-i"] if os.geteuid() == 0 else ["dpkg-deb", "-x"]
    ran = run([*words, str(package()), *([] if os.geteuid() == 0 else [str(root)])])
    if ran.returncode != 0:
        raise RuntimeError(f"{words[0]} has ended with {ran.returncode}: {ran.stderr}")
    return root


def command(name: str, *words: str) -> "subprocess.CompletedProcess[str]":
    modules = installed() / "usr/lib/python3/dist-packages"
    return run([str(installed() / "usr/bin" / name), *words], room(), PYTHONPATH=str(modules), PATH=f"{installed()}/usr/bin:/usr/bin:/bin")


def run_bytes() -> List[str]:
    """Two builds are the same bytes, and the program is that of dist/jepmon.from."""
    program = hashlib.sha256((installed() / "usr/bin/jepmon").read_bytes()).hexdigest()
    return (differing("the second build", build("second").read_bytes() == package().read_bytes(), True)
            + differing("the program", f"program {program}" in (TOP / "dist" / "jepmon.from").read_text(), True))


def run_control() -> List[str]:
    version = re.search(r'^version = "(.*)"$', (TOP / "pyproject.toml").read_text(), re.M)
    assert version is not None
    ran = run(["dpkg-deb", "--show", "--showformat", "${Package} ${Version} ${Architecture}", str(package())])
    return differing("name, version and architecture", ran.stdout, f"jepmon {version.group(1)}-1 amd64")


def run_lintian() -> List[str]:
    ran = run(["lintian", *(["--allow-root"] if os.geteuid() == 0 else []), str(package())])
    found = [line for line in ran.stdout.splitlines() if line[:2] in ("E:", "W:")]
    return [line for line in found if line.split()[2] not in OF_THE_OWNER]


def run_commands() -> List[str]:
    """The checker and a tool judge; every tool names itself as it is called here."""
    check = command("jepmon", "check", str(TOP / "examples" / "recorded-stale-read.edn"))
    judge = command("jepmon-judge", str(STALE))
    faults = differing("jepmon check", (check.returncode, check.stdout.splitlines()[-1:]), (1, ["illegal key 7 index 5"]))
    faults += differing("jepmon-judge", (judge.returncode, judge.stdout.splitlines()[-1:], "could not hold 1 any more" in judge.stderr),
                        (1, ["illegal key 7 index 5"], True))
    for tool in sorted((installed() / "usr/bin").glob("jepmon-*")):
        ran = command(tool.name, "--help")
        faults += differing(f"{tool.name} --help", (ran.returncode, tool.name in ran.stdout.split("\n")[0]), (0, True))
    return faults


def run_manual() -> List[str]:
    """Every command has a page that man shows without a warning, and that names the command's options."""
    faults = []
    for tool in sorted((installed() / "usr/bin").iterdir()):
        page = installed() / "usr/share/man/man1" / f"{tool.name}.1.gz"
        shown = run(["man", "--warnings", "-E", "UTF-8", "-l", str(page)], MANWIDTH="80", MAN_KEEP_FORMATTING="")
        said = command(tool.name, "--help").stdout
        options = set(re.findall(r"^ +(?:-\w, )?(--[a-z][a-z-]+)", said, re.M))
        faults += differing(f"what man says of {page.name}", (shown.returncode, shown.stderr), (0, ""))
        faults += differing(f"options that {page.name} lacks", sorted(name for name in options if name not in shown.stdout), [])
        faults += differing(f"whatis of {page.name}", run(["lexgrog", str(page)]).returncode, 0)
    return faults


def completed(*words: str) -> List[str]:
    """The words that bash offers in place of the last one."""
    script = f'source "{installed()}/usr/share/bash-completion/completions/{words[0]}"; COMP_WORDS=("$@"); COMP_CWORD=$(($# - 1)); ' \
             f'_{words[0].replace("-", "_")}; printf "%s\\n" "${{COMPREPLY[@]}}"'
    return run(["bash", "-c", script, "bash", *words], room()).stdout.split()


def run_bash() -> List[str]:
    (room() / "history.edn").write_text("")
    return (differing("commands", completed("jepmon", "c"), ["check", "confirm"])
            + differing("an option", completed("jepmon", "check", "--mo"), ["--model"])
            + differing("a kind", completed("jepmon", "check", "--model", "wide-f"), ["wide-fifo-queue"])
            + differing("an option of a tool", completed("jepmon-judge", "--by"), ["--by-ends"])
            + differing("a model of a tool", completed("jepmon-judge", "--model", "cas"), ["cas-register"])
            + differing("a file", completed("jepmon-judge", "hist"), ["history.edn"]))


def run_zsh() -> List[str]:
    """A zsh in a terminal completes the begin of a word at the tabulator."""
    functions = installed() / "usr/share/zsh/vendor-completions"
    faults = []
    for typed, want in (("jepmon-judge --by-e\t", "--by-ends"), ("jepmon conf\t", "confirm"), ("jepmon check --model wide-s\t", "wide-set")):
        child, terminal = pty.fork()
        if child == 0:
            os.execvpe("zsh", ["zsh", "-f", "-i"], {**ENVIRONMENT, "TERM": "dumb", "HOME": str(room())})
        os.write(terminal, f"fpath=({functions} $fpath); autoload -Uz compinit; compinit -D -u; PS1=; print rea''dy\n".encode())
        read_until(terminal, "ready")
        os.write(terminal, typed.encode())
        shown = read_until(terminal, want)
        os.close(terminal)
        os.waitpid(child, 0)
        faults += differing(f"zsh for {typed!r}", want in shown, True)
    return faults


def read_until(terminal: int, want: str) -> str:
    shown, end = "", time.monotonic() + 60
    while want not in shown and time.monotonic() < end:
        if select.select([terminal], [], [], 1)[0]:
            shown += os.read(terminal, 4096).decode("utf-8", "replace")
    return shown


def run_removed() -> List[str]:
    """Nothing is left after dpkg has removed it. It is the last case of the package."""
    root = installed()
    ran = run(["dpkg", f"--root={root}", "-P", "jepmon"])
    left = [str(file) for file in root.rglob("*jepmon*") if "var" not in file.relative_to(root).parts]
    return differing("what is left", (ran.returncode, left), (0, []))


# --- The container's recipe ---


def run_recipe() -> List[str]:
    """The files that the recipe copies from the clone are there, and the checker runs with the two files of the C library alone."""
    text = (TOP / "packages" / "Containerfile").read_text()
    own = re.findall(r"^COPY (?!--from)(\S+) ", text, re.M)
    faults = differing("files that are missing", [name for name in own if not (TOP / name).exists()], [])
    faults += differing("what it builds by", "RUN /jepmon/packages/build-deb" in text, True)
    root = room() / "checker"
    for source, target in re.findall(r"^COPY --from=package (/lib\S+) (\S+)$", text, re.M) + [(str(TOP / "dist/jepmon"), "/usr/bin/jepmon")]:
        (root / target[1:]).parent.mkdir(parents=True, exist_ok=True)
        shutil.copy(source, root / target[1:])
    shutil.copy(TOP / "examples" / "recorded-stale-read.edn", root / "history.edn")
    ran = run(["chroot", str(root), "/usr/bin/jepmon", "check", "/history.edn"])
    return faults + differing("the checker", (ran.returncode, ran.stdout.splitlines()[-1:]), (1, ["illegal key 7 index 5"]))


@functools.lru_cache(maxsize=None)
def engines() -> List[str]:
    """The engines that work here: one without its service does not."""
    return [name for name in ENGINES if shutil.which(name) and run([name, "info"]).returncode == 0]


def run_engine() -> List[str]:
    engine = engines()[0]
    ran = run([engine, "build", "-f", str(TOP / "packages" / "Containerfile"), "--target", "checker", str(TOP)])
    return differing(f"{engine} build", (ran.returncode, ran.stderr if ran.returncode else ""), (0, ""))


# --- The workflows ---


@functools.lru_cache(maxsize=None)
def repository() -> pathlib.Path:
    """A repository of the files that the workflows need, with the tag that they name."""
    folder = room() / "repository"
    for name in ("dist", "python", "packages"):
        shutil.copytree(TOP / name, folder / name, ignore=shutil.ignore_patterns("__pycache__", "*.deb"))
    for name in ("jepmon-judge", "pyproject.toml"):
        shutil.copy(TOP / name, folder / name)
    who = ["git", "-c", "user.name=nobody", "-c", "user.email=nobody@localhost"]
    version = re.search(r'^version = "(.*)"$', (TOP / "pyproject.toml").read_text(), re.M)
    assert version is not None
    for words in (["git", "init", "-q"], ["git", "add", "-A"], [*who, "commit", "-qm", "all"], ["git", "tag", f"v{version.group(1)}"]):
        ran = run(words, folder)
        if ran.returncode != 0:
            raise RuntimeError(ran.stderr)
    return folder


def steps(workflow: str) -> Tuple[Dict[str, str], List[str]]:
    """The variables and the commands of a workflow."""
    text = (TOP / "packages" / "workflows" / workflow).read_text()
    variables = dict(re.findall(r"^ +([A-Z_]+): (?!\$)(.*)$", text, re.M))
    found = re.findall(r"^ +(?:run: |- (?=git |\./|'))(.*)$", text, re.M)
    return variables, [line[1:-1] if line.startswith("'") else line for line in found]


def run_workflow(workflow: str) -> List[str]:
    """The steps of a workflow, for a test whose history is legal, one whose history is not, and one that leaves none."""
    faults = []
    variables, commands = steps(workflow)
    faults += differing("the number of steps", len(commands), 3)
    want = {"right": (0, "### legal"), "stale": (1, "### illegal"), "empty": (3, "### no verdict")}
    for name, (status, title) in want.items():
        project = room() / f"{workflow}.{name}"
        (project / "store").mkdir(parents=True)
        source = {"right": TOP / "examples" / "jepsen-register.edn", "stale": STALE}.get(name)
        test = f"cp {source} store/latest\n" if source else "true\n"
        (project / "run-the-test").write_text(f"#!/bin/sh\n{test}")
        (project / "run-the-test").chmod(0o755)
        more = dict(variables, JEPMON_REPOSITORY=f"file://{repository()}", OPTIONS="--min-ok 1", RUNNER_TEMP=str(project), CI_PROJECT_DIR=str(project),
                    GITHUB_STEP_SUMMARY=str(project / "summary"))
        ran = run(["bash", "-ec", "\n".join(commands)], project, **more)
        summary = (project / "summary").read_text() if (project / "summary").exists() else ran.stderr
        faults += differing(f"{name}: status and summary", (ran.returncode, summary.startswith(title)), (status, True))
        faults += differing(f"{name}: the folder of the verdict", (project / "verdict" / "history.edn").exists(), status != 3)
    return faults


def run_forms() -> List[str]:
    """The workflows are YAML, and their steps are those that the other case runs."""
    script = "import sys, yaml, json; print(json.dumps([yaml.safe_load(open(name)) for name in sys.argv[1:]]))"
    ran = run([yaml_python(), "-c", script, "packages/workflows/github.yml", "packages/workflows/gitlab.yml"])
    return differing("the status", (ran.returncode, ran.stderr), (0, ""))


@functools.lru_cache(maxsize=None)
def yaml_python() -> str:
    """A Python that reads YAML, or nothing."""
    for name in (sys.executable, "/usr/bin/python3"):
        if os.path.exists(name) and run([name, "-c", "import yaml"]).returncode == 0:
            return name
    return ""


# --- All of them ---


def missing(*names: str) -> List[str]:
    return [name for name in names if shutil.which(name) is None]


def all_cases() -> List[Tuple[str, Callable[[], List[str]], List[str]]]:
    """Each case by its name, and what is missing for it."""
    deb, not_root = ["dpkg-deb"], [] if os.geteuid() == 0 else ["the rights of root"]
    return [
        ("bytes", run_bytes, missing(*deb)), ("control", run_control, missing(*deb)), ("lintian", run_lintian, missing(*deb, "lintian")),
        ("commands", run_commands, missing(*deb)), ("manual", run_manual, missing(*deb, "man", "lexgrog")), ("bash", run_bash, missing(*deb)),
        ("zsh", run_zsh, missing(*deb, "zsh")), ("removed", run_removed, missing(*deb) + not_root),
        ("recipe", run_recipe, missing("chroot") + not_root),
        ("engine", run_engine, [] if engines() else [f"one of {', '.join(ENGINES)}, at work"]),
        ("github", functools.partial(run_workflow, "github.yml"), missing("git")),
        ("gitlab", functools.partial(run_workflow, "gitlab.yml"), missing("git")),
        ("forms", run_forms, [] if yaml_python() else ["a Python with yaml"]),
    ]


def main() -> int:
    names, skipped = sys.argv[1:], 0
    cases: List[Case] = []
    for name, case, lacks in all_cases():
        if names and name not in names:
            continue
        if lacks and name == "engine" and not names:
            print(f"packages engine: left out, since this is not here: {', '.join(lacks)}")
        elif lacks:
            print(f"packages {name}: skipped, since this is not here: {', '.join(lacks)}")
            skipped += 1
        else:
            cases.append((name, case))
    return run_cases("packages", cases, [name for name in names if any(name == case for case, _ in cases)], skipped)


if __name__ == "__main__":
    sys.exit(main())
