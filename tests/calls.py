#!/usr/bin/env python3
"""Compares the tables of public calls in docs/CALLS.md with the sources. Each call that returns a Result must be in them once, and a row
must not name a call that is not there. A row says `only memory` if and only if the error of its calls is AllocError, and `none` if they
give back no Result. A row of calls that may run out of memory must name tests in which they succeed, and these tests must be there. Prints
what differs, and ends with 'N passed, M failed', one for each crate.

    tests/calls.py --rows      prints a row for each call that is missing, to be completed by hand

A call is public if its crate's root gives it: of a `pub mod`, or one that `pub use` names, or of a type that it names. Calls of derives
and of std's traits do not count, nor do laws, which have no code."""
import pathlib
import re
import sys

import measures
from run import all_cases

TOP = pathlib.Path(__file__).resolve().parent.parent
CRATES = [line.split(":")[0].split()[0] for line in (TOP / "crates.txt").read_text().splitlines()
          if line.strip() and not line.startswith("#")]
WORD = re.compile(r"[A-Za-z_][A-Za-z0-9_]*")


def given(root):
    """The names in a crate's root: the public modules, and the items that `pub use` exports from others."""
    modules = set(re.findall(r"(?m)^pub mod (\w+);", root))
    items = set()
    for module, names in re.findall(r"pub use (\w+)::(\{[^}]*\}|\w+)", root):
        items |= {(module, name) for name in WORD.findall(names)}
    return modules, items


def head_of(lines, at):
    """A function's head, up to the line that opens its body or ends it."""
    head = []
    for line in lines[at:]:
        if line.strip() in ("{", "{}"):
            break
        head.append(line.strip())
        if re.search(r"[;{]$", line.rstrip()) and not re.search(r"\b(ensures|requires)\b", line):
            break
    return " ".join(head)


def error_of(head):
    """The type of the error of a function with this head, or None if it gives back no Result."""
    back = re.search(r"->\s*(?:io::)?Result<(.*)>", re.split(r"\b(?:ensures|requires)\b", head)[0])
    return back.group(1).rpartition(",")[2].strip() if back else None


def calls_of(path, modules, items, types):
    """The public calls of a file, each as 'Holder::name' or 'name', with the type of its error, or None if it gives back no Result."""
    found, holder, in_trait, of_trait = {}, None, False, False
    lines = path.read_text().splitlines()
    for at, line in enumerate(lines):
        impl = re.match(r"(?:pub )?impl(?:<.*?>)?\s+(?:(.*?) for )?(?:\w+::)*(\w+)", line)
        if impl:
            holder, in_trait, of_trait = impl.group(2), False, bool(impl.group(1))
        trait = re.match(r"pub trait (\w+)", line)
        if trait:
            holder, in_trait, of_trait = trait.group(1), True, False
        if line == "}":
            holder, in_trait, of_trait = None, False, False
        call = re.match(r"\s*(pub )?(?:final )?(?:const )?fn (\w+)", line)
        if not call or of_trait or not (call.group(1) or in_trait):
            continue
        is_public = path.stem in modules or (holder in types if holder else (path.stem, call.group(2)) in items)
        head = head_of(lines, at)
        is_law = "()" in head.split("ensures")[0] and "->" not in head
        if is_public and not is_law:
            name = f"{holder}::{call.group(2)}" if holder else call.group(2)
            found[name] = error_of(head)
    return found


def public_calls(crate):
    """The public calls of a crate, each with the type of its error."""
    src = TOP / "crates" / crate / "src"
    root = src / "lib.rt" if (src / "lib.rt").exists() else src / "main.rt"
    modules, items = given(root.read_text())
    found = {}
    for path in sorted(src.glob("**/*.rt")):
        found |= calls_of(path, modules, items, {name for _, name in items})
    return found


def rows_of_tables():
    """The rows of the tables, each with its crate and the cells that follow."""
    for row in (TOP / "docs" / "CALLS.md").read_text().splitlines():
        cells = [cell.strip() for cell in row.strip().removeprefix("|").removesuffix("|").split("|")]
        crate = re.fullmatch(r"`(\w+)`", cells[0])
        if crate and crate.group(1) in CRATES:
            yield crate.group(1), cells[1:]


def told():
    """The rows of each crate in the tables: each call with the begin of its third cell."""
    found = {}
    for crate, (calls, refusals, *_) in rows_of_tables():
        found.setdefault(crate, []).extend((call, kind_told(refusals)) for call in spelled(calls))
    return found


def kind_told(refusals):
    """The refusals in a cell: `none`, `only memory`, or names of refusals."""
    return next((kind for kind in ("none", "only memory") if refusals.startswith(kind)), "names of refusals")


def kind_of(error):
    """The right cell of a call with this error."""
    return "none" if error is None else "only memory" if error == "AllocError" else "names of refusals"


def spelled(cell):
    """The calls that a cell names: `name`, `Holder::name` or `Holder::{name, name}`."""
    for quoted in re.findall(r"`([^`]+)`", cell):
        holder, _, names = quoted.rpartition("::")
        for name in WORD.findall(names):
            yield f"{holder}::{name}" if holder else name


def rows_of_memory():
    """The crate of each row, its calls, whether they may run out of memory, and the tests in which they succeed."""
    return [(crate, calls, memory, seen) for crate, (calls, _, memory, _, seen) in rows_of_tables()]


def tests_of(crate):
    """The names of a crate's tests."""
    text = "".join(path.read_text() for path in (TOP / "crates" / crate / "src").glob("**/*.rt"))
    return set(re.findall(r"#\[test\]\n(?:#.*\n)*(?:pub )?fn (\w+)", text))


def unseen(rows):
    """The faults in the tests that the rows name, by crate. A cell is like this: `crate`: `test`, `test`; cases `name`, `name`; table
    `name`. Cases are those of tests/run.py, tables those of tests/measures.py."""
    others, faults = {"case": {name for name, _ in all_cases()}, "table": measures.TABLES}, {}
    for holder, calls, memory, seen in rows:
        if memory.startswith("none") != (not seen):
            faults.setdefault(holder, []).append(f"says of {calls} in which tests it succeeds, or does not")
        for group in seen.split("; ") if seen else []:
            crate, other, names = re.fullmatch(r"(?:`(\w+)`:|(case|table)s?) (.*)", group).groups()
            there = tests_of(crate) if crate else others[other]
            faults.setdefault(holder, []).extend(f"names {name} in {group}, which is not there" for name in WORD.findall(names) if name not in there)
    return faults


def faults_of(crate, named):
    """The faults in the rows of a crate, which name these calls."""
    calls = public_calls(crate)
    names = [name for name, _ in named]
    faults = [f"does not have {name}" for name, error in calls.items() if error and name not in names]
    faults += [f"has {name}, which is not there" for name in names if name not in calls]
    faults += [f"has {name} twice" for name in set(names) if names.count(name) > 1]
    return faults + [f"says of {name}: {kind}, and not: {kind_of(calls[name])}" for name, kind in named
                     if name in calls and kind != kind_of(calls[name])]


def print_rows(table):
    """A row for each call that is missing."""
    for crate in CRATES:
        names = {name for name, _ in table.get(crate, [])}
        for name, error in public_calls(crate).items():
            if error and name not in names:
                print(f"| `{crate}` | `{name}` | " + ("only memory | yes" if error == "AllocError" else f"`..`: `{error}` | ..") + " | | |")


def main():
    table, failed = told(), 0
    if sys.argv[1:] == ["--rows"]:
        print_rows(table)
        return 0
    seen = unseen(rows_of_memory())
    for crate in CRATES:
        faults = seen.get(crate, []) + faults_of(crate, table.get(crate, []))
        failed += bool(faults)
        for fault in faults:
            print(f"docs/CALLS.md, {crate}: {fault}")
    print(f"{len(CRATES) - failed} passed, {failed} failed")
    return 1 if failed else 0


if __name__ == "__main__":
    sys.exit(main())
