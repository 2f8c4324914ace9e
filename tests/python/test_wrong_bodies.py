"""Tries the runner of wrong bodies on a small repository, with a toolchain that is a script."""
import contextlib
import io
import os
import pathlib
import subprocess
import tempfile
import unittest
from typing import Dict, Tuple
from unittest import mock

from tests.wrong import bodies, edit, prover, release

SOURCE = """//! Counts.

pub struct Count(u32);

impl Display for Count<'a> {
    fn shown(&self) -> u32 {
        self.0
    }
}

pub fn next(n: u32) -> u32 {
    n + 1
}
"""
# Answers as the prover does, by the words in the crate's text.
RATTLE = """#!/bin/sh
only=false
for word in "$@"; do [ "$word" = --only ] && only=true; done
text=$(cat src/*.rt)
case $text in
  *refused*) echo 'note: src/lib.rt:11:5: it is not proved that result = n + 1'; echo 'logic=not-proved functions=2'; exit 1 ;;
  *caller*) if $only; then echo 'only=1 proved=1'; exit 0; fi
            echo 'note: src/lib.rt:3:5: it is not proved that the callee may be called'; echo 'logic=not-proved functions=2'; exit 1 ;;
  *gone*) echo 'proofs/next/Answers.antt:2:3: error: `n` is not in scope'; echo 'logic=not-proved functions=2'; exit 1 ;;
  *unread*) echo 'src/lib.rt:11:5: error: expected the end'; echo 'logic=not-proved functions=2'; exit 1 ;;
  *typed*) echo 'error[E0308]: mismatched types'; exit 1 ;;
  *limit*) echo 'src/lib.rt:11:5: error: antt ran out of stack'; exit 3 ;;
  *killed*) kill -9 $$ ;;
esac
echo 'logic=proved functions=2'
"""


def git(top: pathlib.Path, *words: str) -> None:
    subprocess.run(["git", "-c", "user.name=x", "-c", "user.email=x@localhost", *words], cwd=top, check=True, stdout=subprocess.DEVNULL)


class Repository:
    """Two crates, `low` and `high` on it, with a wrong body each, and a toolchain."""

    def __init__(self, folder: pathlib.Path) -> None:
        self.top, self.kit, self.bin = folder / "top", folder / "kit", folder / "bin"
        for name in ("low", "high"):
            self.write(f"crates/{name}/src/lib.rt", SOURCE)
            self.wrong(f"{name}/returns_n", "n + 1", "n /* refused */")
        self.build()
        self.write("crates.txt", "# the crates\nlow: std_io\nhigh: low\n")
        self.write("HANDLES", "Handles allowed: none.\n")
        self.write("dist/jepmon", "")
        self.script(self.kit / "bin" / "rattle", RATTLE)
        self.set_toolchain("kit 1")
        git(self.top, "init", "-q")
        self.commit()

    def write(self, path: str, text: str) -> None:
        (self.top / path).parent.mkdir(parents=True, exist_ok=True)
        (self.top / path).write_text(text)

    def wrong(self, name: str, old: str, new: str) -> None:
        self.write(f"wrong/{name}.edit", f"file: src/lib.rt\nold:     {old}\nnew:     {new}\n")

    def script(self, path: pathlib.Path, text: str) -> None:
        path.parent.mkdir(parents=True, exist_ok=True)
        path.write_text(text)
        path.chmod(0o755)

    def build(self) -> None:
        """Builds the libraries of the files as they stand."""
        for name in ("low", "high"):
            self.write(f"crates/{name}/out/rlib/{name}.rlib/format", "")

    def set_toolchain(self, line: str) -> None:
        self.script(self.bin / "rt", f"#!/bin/sh\ncase $1 in doc) echo {self.kit}/PAGE ;; version) echo '{line}' ;; esac\n")

    def commit(self) -> None:
        git(self.top, "add", "--all", "--", ".", ":!crates/*/out")
        git(self.top, "commit", "-q", "--allow-empty", "-m", "a landing")

    def environment(self) -> Dict[str, str]:
        return {"PATH": f"{self.bin}{os.pathsep}{os.environ['PATH']}", "XDG_CACHE_HOME": str(self.top.parent / "cache")}

    def run(self, *words: str) -> Tuple[int, str]:
        """The status of a run, and what it printed."""
        said = io.StringIO()
        with mock.patch.object(bodies, "TOP", self.top), mock.patch.dict(os.environ, self.environment()), contextlib.redirect_stdout(said):
            return bodies.main(words), said.getvalue()


class WrongBodies(unittest.TestCase):
    def setUp(self) -> None:
        folder = tempfile.TemporaryDirectory()
        self.addCleanup(folder.cleanup)
        self.repository = Repository(pathlib.Path(folder.name))

    def released(self) -> None:
        status, said = self.repository.run("--release")
        self.assertEqual(0, status, said)
        self.repository.commit()

    def assert_plan(self, *lines: str) -> None:
        _, said = self.repository.run("--plan")
        self.assertEqual(sorted(lines), sorted(line for line in said.splitlines()[:-1] if "by turns" not in line))

    def fails(self, *lines: str) -> None:
        status, said = self.repository.run()
        self.assertEqual(1, status, said)
        for line in lines:
            self.assertIn(line, said)

    # --- Which are due ---

    def test_all_are_due_before_the_first_release(self) -> None:
        self.assert_plan("low/returns_n: no release run is known", "high/returns_n: no release run is known")

    def test_none_is_due_after_a_release(self) -> None:
        self.released()
        self.assert_plan()
        status, said = self.repository.run()
        self.assertEqual((0, "2 passed, 0 failed"), (status, said.splitlines()[-1]))
        self.assertIn("wrong bodies: 0 due, 0 tried, 2 kept, 2 stand by the last release", said)

    def test_a_changed_text_is_due(self) -> None:
        self.released()
        self.repository.wrong("low/returns_n", "n + 1", "n + 2 /* refused */")
        self.assert_plan("low/returns_n: its text changed")

    def test_a_new_wrong_body_is_due_and_a_file_about_one_is_none(self) -> None:
        self.released()
        self.repository.wrong("low/returns_two", "n + 1", "2 /* refused */")
        self.repository.write("wrong/low/by_a_type.md", "A type refuses it.\n")
        self.assert_plan("low/returns_two: its text changed")

    def test_a_changed_crate_makes_its_own_due_and_not_those_above(self) -> None:
        self.released()
        self.repository.write("crates/low/proofs/Lib.antt", "-- more\n")
        self.assert_plan("low/returns_n: its crate changed")

    def test_a_changed_line_of_the_crate_makes_its_own_due(self) -> None:
        self.released()
        self.repository.write("crates.txt", "low: std_io\nhigh may_wait=1: low\n")
        self.assert_plan("high/returns_n: its crate changed")

    def test_what_no_proof_reads_makes_none_due(self) -> None:
        self.released()
        self.repository.write("crates/low/README.md", "more\n")
        self.repository.write("docs/GUIDE.md", "more\n")
        self.assert_plan()

    def test_another_toolchain_or_other_handles_make_all_due(self) -> None:
        self.released()
        self.repository.set_toolchain("kit 2")
        self.assert_plan("low/returns_n: the toolchain changed", "high/returns_n: the toolchain changed")
        self.repository.set_toolchain("kit 1")
        self.repository.write("HANDLES", "Handles allowed: Wait.\n")
        self.assert_plan("low/returns_n: HANDLES changed", "high/returns_n: HANDLES changed")

    # --- The line of a release ---

    def test_a_forged_line_fails(self) -> None:
        self.released()
        self.repository.write(release.RECORD, f"refused 2 files {'0' * 64} toolchain kit 1\n")
        self.fails("speaks of files that no commit here has")
        self.repository.write(release.RECORD, "refused all\n")
        self.fails("is not the one line that a release run writes")

    def test_a_line_of_files_that_were_never_committed_fails(self) -> None:
        self.repository.write("crates/low/src/lib.rt", SOURCE + "\n")
        self.repository.build()
        self.repository.run("--release")
        self.repository.write("crates/low/src/lib.rt", SOURCE)
        self.repository.build()
        self.fails("speaks of files that no commit here has")

    def test_a_line_of_another_count_fails(self) -> None:
        self.released()
        record = self.repository.top / release.RECORD
        record.write_text(record.read_text().replace("refused 2", "refused 3"))
        self.fails("says that 3 wrong bodies were refused")

    def test_a_stale_line_makes_due_what_changed_since(self) -> None:
        self.released()
        stale = (self.repository.top / release.RECORD).read_text()
        self.repository.write("crates/low/src/lib.rt", SOURCE + "\n")
        self.repository.commit()
        self.repository.build()
        self.released()
        self.assert_plan()
        self.repository.write(release.RECORD, stale)
        self.assert_plan("low/returns_n: its crate changed")

    def test_no_release_where_one_is_not_refused_for_its_clause(self) -> None:
        for word in ("proved", "gone", "unread", "typed", "limit", "killed"):
            with self.subTest(word):
                self.repository.wrong("low/returns_n", "n + 1", f"n /* {word} */")
                status, said = self.repository.run("--release")
                self.assertEqual(1, status, said)
                self.assertIn("FAILED low/returns_n", said)
                self.assertFalse((self.repository.top / release.RECORD).exists())

    def test_a_release_run_goes_on_where_it_stopped(self) -> None:
        self.released()
        (self.repository.top / release.RECORD).unlink()
        self.repository.script(self.repository.kit / "bin" / "rattle", "#!/bin/sh\necho logic=proved\n")
        self.assertEqual(1, self.repository.run("--release", "--anew")[0])
        self.assertEqual(0, self.repository.run("--release")[0])
        self.repository.write("crates/low/src/lib.rt", SOURCE + "\n")
        self.repository.build()
        self.assertEqual(1, self.repository.run("--release")[0])

    # --- What the prover says ---

    def outcome(self, word: str) -> Tuple[str, str]:
        self.repository.wrong("low/returns_n", "n + 1", f"n /* {word} */")
        with mock.patch.dict(os.environ, self.repository.environment()):
            here = prover.Prover(prover.Crates(self.repository.top))
        wrong = edit.Wrong("low", self.repository.top / "wrong/low/returns_n.edit")
        with tempfile.TemporaryDirectory() as kept:
            tried = here.tried(wrong, kept)
        return tried.kind, tried.told

    def test_how_a_wrong_body_can_end(self) -> None:
        self.assertEqual(("clause", "src/lib.rt:11: it is not proved that result = n + 1"), self.outcome("refused"))
        self.assertEqual("proved", self.outcome("proved")[0])
        self.assertEqual(("name", "proofs/next/Answers.antt:2: error: `n` is not in scope"), self.outcome("gone"))
        self.assertEqual("unreadable", self.outcome("unread")[0])
        self.assertEqual("unreadable", self.outcome("typed")[0])
        self.assertEqual("limit", self.outcome("limit")[0])
        self.assertEqual("unknown", self.outcome("killed")[0])

    def test_the_whole_crate_decides_where_the_function_alone_is_proved(self) -> None:
        self.assertEqual(("clause", "src/lib.rt:3: it is not proved that the callee may be called"), self.outcome("caller"))

    def test_a_wrong_body_that_does_not_apply_fails(self) -> None:
        self.repository.wrong("low/returns_n", "n + 2", "n")
        self.fails("FAILED low/returns_n: does not apply: its old text stands 0 times in src/lib.rt, and not once")
        self.repository.wrong("low/returns_n", "n + 1", "n + 1")
        self.fails("it changes nothing")
        self.repository.write("wrong/low/returns_n.edit", "file: out/lib.rt\nold: n\nnew: m\n")
        self.fails("there is no file out/lib.rt below src/, specs/ or proofs/")

    def test_a_library_that_is_older_than_its_files_fails(self) -> None:
        (self.repository.top / "crates/low/out/rlib/low.rlib/format").unlink()
        self.fails("FAILED high/returns_n: has no verdict: the library low was not built by the gate of the files that are here")

    def test_a_stray_file_fails(self) -> None:
        self.repository.write("wrong/none/returns_n.edit", "")
        self.repository.write("wrong/low/more/returns_n.edit", "")
        self.fails("wrong/none/returns_n.edit: a wrong body is", "wrong/low/more/returns_n.edit: a wrong body is")

    def test_named_ones_alone(self) -> None:
        self.assertIn("1 tried", self.repository.run("high")[1])
        self.assertIn("1 tried", self.repository.run("low/returns_n")[1])
        self.assertIn("FAILED there is no wrong body nothing", self.repository.run("nothing")[1])

    # --- The function that is changed ---

    def test_names_of_functions(self) -> None:
        self.assertEqual("next", edit.function_at("src/lib.rt", SOURCE, SOURCE.index("n + 1")))
        self.assertEqual("counts::next", edit.function_at("src/counts.rt", SOURCE, SOURCE.index("n + 1")))
        self.assertEqual("counts::CountDisplay::shown", edit.function_at("src/counts.rt", SOURCE, SOURCE.index("self.0")))
        self.assertIsNone(edit.function_at("src/lib.rt", SOURCE, SOURCE.index("u32")))
        self.assertIsNone(edit.function_at("specs/Lib.antt", SOURCE, SOURCE.index("n + 1")))


if __name__ == "__main__":
    unittest.main()
