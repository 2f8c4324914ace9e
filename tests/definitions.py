#!/usr/bin/env python3
"""Compares the clauses of public calls with docs/DEFINITIONS.md: each definition of this repository that such a clause cites
must be named there, in backticks. And each wrong body that docs/WRONG_BODIES.md names, as `crate`: `name`, must be there. Prints what
is left out, and ends with 'N passed, M failed', one for each crate that is compared and one for the wrong bodies.

A call is public where its crate's root gives it: an item of a `pub mod`, or one that `pub use` names. The file's `ghost use` lines resolve
the names in a clause; generated modules (`specs.declared`) are types of the code and not definitions.

The crates of INNER are not compared: only `frontier` calls them, or another one of them, and its public clauses cite no definition of
theirs. So nobody has to believe one to believe a promise. If a public clause of another crate cites one all the same, the output says so.
"""
import pathlib
import re
import sys

TOP = pathlib.Path(__file__).resolve().parent.parent
CRATES = [line.split(":")[0].split()[0] for line in (TOP / "crates.txt").read_text().splitlines()
          if line.strip() and not line.startswith("#")]
INNER = ["buckets", "words", "rows", "products", "interner", "moves", "ends", "product_ends"]
# A file of definitions, and not a type within one, whose variants go by their type's name.
IMPORT = re.compile(r"ghost use Rattle\.(\w+)\.specs\.(?!declared|contracts)\w+\.\{([^}]*)\};")
WORD = re.compile(r"[A-Za-z_][A-Za-z0-9_]*")


def named():
    """The names that the document has in backticks."""
    text = (TOP / "docs" / "DEFINITIONS.md").read_text()
    return {word for quoted in re.findall(r"`([^`\n]+)`", text) for word in WORD.findall(quoted)}


def given(root):
    """The names in a crate's root: the public modules, and the items that `pub use` exports from others."""
    modules = set(re.findall(r"(?m)^pub mod (\w+);", root))
    items = set()
    for module, names in re.findall(r"pub use (\w+)::(\{[^}]*\}|\w+)", root):
        items |= {(module, name) for name in WORD.findall(names)}
    return modules, items


def imported(text):
    """The definitions of this repository that a file brings in for its clauses, by the name that they have there."""
    names = set()
    for crate, listed in IMPORT.findall(text):
        if crate in CRATES:
            for entry in listed.split(","):
                parts = entry.split(" as ")
                names.add((parts[-1].strip(), parts[0].strip()))
    return names


def clauses(text, module, modules, items):
    """The text of the clauses of public functions, and of what public types show of themselves."""
    found, holder, in_trait, lines = [], None, False, text.splitlines()
    at = 0
    while at < len(lines):
        line = lines[at]
        head = re.match(r"impl(?:<.*?>)?\s+(?:[\w:<>, ]+ for )?(?:\w+::)*(\w+)", line)
        if head:
            holder, in_trait = head.group(1), False
        trait = re.match(r"pub trait (\w+)", line)
        if trait:
            holder, in_trait = trait.group(1), True
        if line == "}":
            holder, in_trait = None, False
        call = re.match(r"\s*(pub )?(?:final )?(?:const )?fn (\w+)", line)
        ghost = re.match(r"\s+ghost (?!use|view|invariant|inverse|laws|total|exact|matches|respects)\w+\s*[:=]", line)
        is_public = module in modules or (module, holder if holder else (call.group(2) if call else "")) in items
        if is_public and (call and (call.group(1) or in_trait) or ghost and holder):
            while at < len(lines):
                found.append(lines[at])
                if ghost or lines[at].strip() == "{" or re.search(r"[{;]\s*$", lines[at]) and "ensures" not in lines[at] and "requires" not in lines[at]:
                    break
                at += 1
        at += 1
    return "\n".join(found)


def left_out(crate, names):
    """The definitions that a public clause of the crate cites and the document does not name."""
    src = TOP / "crates" / crate / "src"
    root = src / "lib.rt" if (src / "lib.rt").exists() else src / "main.rt"
    modules, items = given(root.read_text())
    missing = set()
    for path in sorted(src.glob("*.rt")):
        text = path.read_text()
        words = set(WORD.findall(clauses(text, path.stem, modules, items)))
        missing |= {(path.name, name) for local, name in imported(text) if local in words and name not in names}
    return sorted(missing)


def bodies_gone():
    """The wrong bodies that docs/WRONG_BODIES.md names and that are not there, each as the path where it should be."""
    gone = []
    for line in (TOP / "docs" / "WRONG_BODIES.md").read_text().splitlines():
        for crates, edits in re.findall(r"((?:`\w+`(?:, )?)+): ((?:`\w+`(?:, )?)+)", line):
            paths = [f"wrong/{crate}/{edit}.edit" for crate in WORD.findall(crates) for edit in WORD.findall(edits)]
            gone += [path for path in paths if not (TOP / path).exists()]
    return gone


def main():
    names, failed = named(), 0
    compared = [crate for crate in CRATES if crate not in INNER]
    for crate in compared:
        missing = left_out(crate, names)
        failed += bool(missing)
        for path, name in missing:
            print(f"docs/DEFINITIONS.md does not name `{name}`, which a public clause of {crate}/src/{path} cites")
    gone = bodies_gone()
    failed += bool(gone)
    for path in gone:
        print(f"docs/WRONG_BODIES.md names a wrong body that is not there: {path}")
    print(f"{len(compared) + 1 - failed} passed, {failed} failed")
    return 1 if failed else 0


if __name__ == "__main__":
    sys.exit(main())
