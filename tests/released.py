#!/usr/bin/env python3
"""Tries ./jepmon, which finds, builds and installs the program, on a small tree: two crates, a released program that is a script, and a
toolchain that is one. Ends with 'N passed, M failed'. With words, it runs the tests of these names alone.
"""
import contextlib
import hashlib
import pathlib
import shutil
import subprocess
import sys
import tempfile
from typing import Dict, Iterator, List, Tuple

from case_loop import LIMIT, Case, differing, run_cases

TOP = pathlib.Path(__file__).resolve().parent.parent
TOOLS = ["awk", "bash", "cat", "chmod", "cp", "cut", "date", "dirname", "env", "find", "grep", "head", "install", "mkdir", "mktemp", "mv", "printf",
         "readlink", "rm", "sed", "sh", "sha256sum", "sort", "tail", "tar", "touch", "tr", "uname", "wc", "xargs"]
RELEASED = "#!/bin/sh\necho released $*\n"
TOOLCHAIN = "kit logic 1"
# A toolchain: it proves what it is given, and builds a program that says so.
RT = f"""#!/bin/sh
case $1 in
  version) echo '{TOOLCHAIN}' ;;
  check) echo checked; exit ${{FAKE_STATUS:-0}} ;;
  run) mkdir -p out; printf '#!/bin/sh\\necho built $*\\n' >out/jepmon; chmod +x out/jepmon ;;
  ci)
    echo 'rt: low proved'
    echo 'rt: low: its tests are proved'
    [ "${{FAKE_STATUS:-0}}" = 0 ] || {{ echo 'rt: jepmon NOT PROVED'; exit "$FAKE_STATUS"; }}
    echo 'rt: jepmon is kept: an earlier run'
    mkdir -p crates/jepmon/out; printf '#!/bin/sh\\necho built $*\\n' >crates/jepmon/out/jepmon; chmod +x crates/jepmon/out/jepmon ;;
esac
"""


class Tree:
    """A repository as small as it can be, with a released program of its sources, and what is on the PATH there."""

    def __init__(self, folder: pathlib.Path) -> None:
        self.top, self.bin, self.temporary = folder / "tree", folder / "bin", folder / "tmp"
        for name in ("low", "jepmon"):
            (self.top / "crates" / name / "src").mkdir(parents=True)
            (self.top / "crates" / name / "src" / "lib.rt").write_text(f"//! {name}\n")
        (self.top / "crates.txt").write_text("# crates\nlow:\njepmon: low\ntests: jepmon\n")
        (self.top / "HANDLES").write_text("Handles allowed: none.\n")
        (self.top / "docs").mkdir()
        (self.top / "docs" / "PROOFS.md").write_text(f"`{TOOLCHAIN}`\n")
        shutil.copy(TOP / "jepmon", self.top / "jepmon")
        self.bin.mkdir()
        self.temporary.mkdir()
        for tool in TOOLS:
            found = shutil.which(tool)
            assert found is not None, tool
            (self.bin / tool).symlink_to(found)

    def write_program(self, name: str, text: str) -> None:
        path = self.top / name
        path.parent.mkdir(exist_ok=True)
        path.write_text(text)
        path.chmod(0o755)

    def release(self) -> None:
        """Releases the program of the sources as they stand."""
        self.write_program("dist/jepmon", RELEASED)
        made = hashlib.sha256(RELEASED.encode()).hexdigest()
        self.note(f"sources none\nprogram {made}\ntoolchain {TOOLCHAIN}\nversion 1\n")
        sources = dict(line.split(" ", 1) for line in self.run("origin")[0].splitlines())["sources"]
        self.note(f"sources {sources}\nprogram {made}\ntoolchain {TOOLCHAIN}\nversion 1\n")

    def note(self, text: str) -> None:
        (self.top / "dist" / "jepmon.from").write_text(text)

    def install_toolchain(self) -> None:
        (self.bin / "rt").write_text(RT)
        (self.bin / "rt").chmod(0o755)

    def change_sources(self) -> None:
        (self.top / "crates" / "low" / "src" / "lib.rt").write_text("//! low, changed\n")

    def run(self, *words: str, **environment: str) -> Tuple[str, str, int]:
        """The output of a command, its standard error line by line without the clock, and its status."""
        ran = subprocess.run([str(self.top / "jepmon"), *words], stdin=subprocess.DEVNULL, capture_output=True, text=True, timeout=LIMIT,
                             cwd=self.top, env={"PATH": str(self.bin), "TMPDIR": str(self.temporary), "HOME": str(self.top), **environment})
        return ran.stdout, ran.stderr, ran.returncode


@contextlib.contextmanager
def tree(is_released: bool = True, has_toolchain: bool = False) -> Iterator[Tree]:
    with tempfile.TemporaryDirectory() as folder:
        made = Tree(pathlib.Path(folder))
        if is_released:
            made.release()
        if has_toolchain:
            made.install_toolchain()
        yield made


def came(got: Tuple[str, str, int], output: str, error: str, status: int) -> List[str]:
    """The differences, if standard error must have these words, or be empty."""
    faults = differing("standard output", got[0], output) + differing("status", got[2], status)
    fits = error in got[1] if error else not got[1]
    return faults + ([] if fits else differing("standard error", got[1], error))


def run_released() -> List[str]:
    """The released program runs without a toolchain and with one, from a folder whose name has spaces too."""
    with tree() as made:
        faults = came(made.run("a", "b"), "released a b\n", "", 0) + came(made.run("again"), "released again\n", "", 0)
        made.install_toolchain()
        faults += came(made.run("c"), "released c\n", "", 0)
        other = made.top.parent / "an other place"
        made.top.rename(other)
        made.top = other
        return faults + came(made.run("d"), "released d\n", "", 0)


def run_read_only() -> List[str]:
    """Where nothing can be written the released program runs all the same, and a build is refused."""
    with tree(has_toolchain=True) as made:
        shutil.rmtree(made.top / "crates" / "jepmon" / "out")
        (made.top / "crates" / "jepmon" / "out").write_text("no folder\n")
        return came(made.run("a"), "released a\n", "", 0) + came(made.run("build"), "", "can't be written: the checkout is read-only\n", 3)


def run_older() -> List[str]:
    """With changed sources the released program runs if there is no toolchain, and says so; else they are built."""
    with tree() as made:
        made.change_sources()
        faults = came(made.run("a"), "released a\n", "the released program runs, which is of older sources than those that are here", 0)
        made.install_toolchain()
        faults += came(made.run("a"), "built a\n", "there is no program of the sources that are here yet", 0)
        return faults + came(made.run("b"), "built b\n", "", 0)


def run_damaged() -> List[str]:
    """A damaged program is refused with the cure, and nothing runs or is built instead."""
    damages: Dict[str, Tuple[str, str]] = {
        "dist/jepmon": ("#!/bin/sh\necho other\n", "dist/jepmon is damaged: its checksum is not the one in dist/jepmon.from"),
        "dist/jepmon.from": ("", "dist/jepmon is damaged: its checksum is not the one in dist/jepmon.from"),
    }
    faults = []
    for name, (text, error) in damages.items():
        with tree(has_toolchain=True) as made:
            made.write_program(name, text)
            faults += came(made.run("a"), "", error, 3) + came(made.run("install", str(made.top / "to")), "", error, 3)
            faults += differing("what was installed", (made.top / "to").exists(), False)
    for name, error in (("jepmon", "dist/jepmon.from has no dist/jepmon beside it"), ("jepmon.from", "has no dist/jepmon.from beside it")):
        with tree(has_toolchain=True) as made:
            (made.top / "dist" / name).unlink()
            faults += came(made.run("a"), "", error, 3)
    with tree() as made:
        (made.top / "dist" / "jepmon").chmod(0o644)
        return faults + came(made.run("a"), "", "dist/jepmon may not be run: chmod +x dist/jepmon", 3)


def run_elsewhere() -> List[str]:
    """The tool reports another architecture, and a machine on which it does not start, with status 3."""
    with tree() as made:
        (made.bin / "uname").unlink()
        (made.bin / "uname").write_text("#!/bin/sh\n[ $1 = -s ] && echo Linux || echo aarch64\n")
        (made.bin / "uname").chmod(0o755)
        faults = came(made.run("a"), "", "the released program is for Linux on x86-64, and this is Linux on aarch64", 3)
    with tree() as made:
        text = "#!/bin/sh\necho GLIBC_2.34 not found >&2\nexit 1\n"
        made.write_program("dist/jepmon", text)
        made.note((made.top / "dist" / "jepmon.from").read_text().replace(hashlib.sha256(RELEASED.encode()).hexdigest(),
                                                                         hashlib.sha256(text.encode()).hexdigest()))
        return faults + came(made.run("a"), "", "the released program does not run on this machine: GLIBC_2.34 not found", 3)


def run_nothing() -> List[str]:
    """With no released program and no toolchain there is none, and nothing else comes."""
    with tree(is_released=False) as made:
        return (came(made.run("a"), "", "there is no program of the sources that are here, and the toolchain's command rt", 3)
                + came(made.run("build"), "", "the toolchain's command rt, which builds it, is not on the PATH", 3)
                + came(made.run("origin"), "", "there is no program of the sources that are here yet: ./jepmon build", 3))


def run_build() -> List[str]:
    """A build goes before what is released. It is of the program's crates alone, and leaves nothing behind."""
    with tree(has_toolchain=True) as made:
        output, error, status = made.run("build")
        lines = [line.split(" ", 2)[2] if line[8:9].isdigit() else line for line in error.splitlines()]
        faults = differing("the lines", lines, [
            "proving 2 crates, lowest first, as many at once as there are cores", "proved low, 1 of the crates are left",
            "proved jepmon, 0 of the crates are left", "built crates/jepmon/out/jepmon"]) + differing("what came", (output, status), ("", 0))
        faults += came(made.run("a"), "built a\n", "", 0) + differing("what is left", list(made.temporary.iterdir()), [])
        log = (made.top / "crates" / "jepmon" / "out" / "build.log").read_text()
        origin = made.run("origin")[0].splitlines()
        return faults + differing("its origin", (origin[0], origin[-1]), (
            f"path {made.top}/crates/jepmon/out/jepmon", "origin built here of the sources that are here"))


def run_failed_build() -> List[str]:
    """A build that fails says where the log is, leaves what was built before, and what is released runs on."""
    with tree(has_toolchain=True) as made:
        faults = came(made.run("build", FAKE_STATUS="1"), "", "the log is crates/jepmon/out/build.log", 3)
        faults += differing("what is left", list(made.temporary.iterdir()), []) + came(made.run("a"), "released a\n", "", 0)
        faults += came(made.run("build"), "", "built crates/jepmon/out/jepmon", 0)
        return faults + came(made.run("build", FAKE_STATUS="1"), "", "NOT PROVED", 3) + came(made.run("a"), "built a\n", "", 0)


def run_kept_work() -> List[str]:
    """Where each crate has kept work of checks, they are checked in turn."""
    with tree(has_toolchain=True) as made:
        for name in ("low", "jepmon"):
            (made.top / "crates" / name / "out" / "incremental").mkdir(parents=True)
        return came(made.run("build"), "", "proving low, 2 of the crates are left", 0) + came(made.run("a"), "built a\n", "", 0)


def run_install() -> List[str]:
    """`install` copies the program that runs, and refuses a folder that it can't make."""
    with tree() as made:
        faults = came(made.run("install", "to/bin"), "", "installed to/bin/jepmon", 0)
        faults += differing("what was installed", (made.top / "to" / "bin" / "jepmon").read_text(), RELEASED)
        faults += came(made.run("install", "crates.txt"), "", "crates.txt is no folder, and can't be made one", 3)
        return (faults + came(made.run("install"), "", "install takes a folder: ./jepmon install ~/.local/bin", 3)
                + came(made.run("build", "it"), "", "build takes no words", 3) + came(made.run("origin", "it"), "", "origin takes no words", 3))


def main() -> int:
    cases: List[Case] = [(name[4:], run) for name, run in globals().items() if name.startswith("run_") and name != "run_cases"]
    return run_cases("test", cases, sys.argv[1:])


if __name__ == "__main__":
    sys.exit(main())
