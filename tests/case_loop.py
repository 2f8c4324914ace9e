"""The common parts of scripts of cases: the files of a case, and the loop over cases."""
import contextlib
import io
import pathlib
import re
import runpy
from typing import Callable, List, Tuple

LIMIT = 60  # seconds for one run
Case = Tuple[str, Callable[[], List[str]]]


def read(path: pathlib.Path, default: bytes = b"") -> bytes:
    return path.read_bytes() if path.exists() else default


def words(path: pathlib.Path) -> List[str]:
    """The words of a file, one a line; none where there is no file."""
    return [word for word in read(path).decode().split("\n") if word]


def given(path: pathlib.Path) -> bytes:
    """The bytes of a file of a case, or what the script of its name prints, if it is a script, NAME.py."""
    script = path.with_suffix(".py")
    if not script.exists():
        return read(path)
    printed = io.BytesIO()
    with contextlib.redirect_stdout(io.TextIOWrapper(printed, "utf-8", write_through=True)) as stream:
        runpy.run_path(str(script), run_name="__main__")
        stream.flush()
        return printed.getvalue()


def by_model(text: bytes) -> bytes:
    """The text with the models in place of their wide kinds: an older program has not all of these, and the tools judge without."""
    return re.sub(rb"\bmodel wide-([a-z-]+) ", rb"model \1 ", text)


def differing(what: str, got: object, want: object) -> List[str]:
    return [] if got == want else [f"{what} was {shortened(got)} in place of {shortened(want)}"]


def shortened(value: object) -> str:
    text = repr(value)
    return text if len(text) < 2000 else text[:1500] + " .. " + text[-400:]


def run_cases(title: str, cases: List[Case], names: List[str], skipped: int = 0) -> int:
    """Runs the cases of these names, or all where none is named, and prints what each came to, and how many more were skipped. The exit
    status."""
    unknown = sorted(set(names) - {name for name, _ in cases})
    failed = len(unknown)
    for name in unknown:
        print(f"{title} {name}: there is no such case")
    cases = [case for case in cases if not names or case[0] in names]
    for name, run in cases:
        try:
            faults = run()
        except Exception as fault:  # a case that can't be run has failed
            faults = [repr(fault)]
        print(f"{title} {name}: {'ok' if not faults else 'FAILED'}", flush=True)
        for line in faults:
            print(f"  {line}")
        failed += bool(faults)
    print(f"{len(cases) + len(unknown) - failed} passed, {failed} failed" + (f", {skipped} skipped" if skipped else ""), flush=True)
    return 1 if failed else 0
