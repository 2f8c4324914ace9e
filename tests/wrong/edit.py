"""A wrong body: the file wrong/CRATE/NAME.edit, the texts that it makes of the crate's files, and the functions that it changes.

The file has a line `file: src/NAME.rt` and pairs of lines `old: TEXT` and `new: TEXT`. The old text stands in the file exactly once, and
the new text replaces it. Each text is one line. Further pairs apply to the result of the earlier pairs.
"""
from __future__ import annotations

import pathlib
import re
from typing import Dict, List, NamedTuple, Optional

PARTS = ("src", "specs", "proofs")
FUNCTION = re.compile(r"^(\s*)(?:pub(?:\([^)]*\))?\s+)?(?:const\s+)?(?:unsafe\s+)?fn\s+(\w+)", re.M)
IMPL = re.compile(r"^impl\b([^{;]*)", re.M)
ARGUMENTS = re.compile(r"<[^<>]*>")


class Wrong(NamedTuple):
    """A wrong body that is kept."""

    crate: str
    path: pathlib.Path

    @property
    def name(self) -> str:
        return f"{self.crate}/{self.path.stem}"


class Planted(NamedTuple):
    """A crate's texts with the wrong body in them."""

    texts: Dict[str, str]  # by path in the crate
    functions: List[str]  # that are changed, as `rattle check --only` names them


class Inapplicable(Exception):
    """Says why a wrong body does not apply to the crate as it stands."""


def wrong_bodies(top: pathlib.Path) -> List[Wrong]:
    """The wrong bodies that are kept, by crate and name."""
    return [Wrong(path.parent.name, path) for path in sorted((top / "wrong").glob("*/*.edit"))]


def strays(top: pathlib.Path, crates: List[str]) -> List[str]:
    """The files below wrong/ that are neither a wrong body of a crate nor a text about one."""
    found = [path.relative_to(top) for path in sorted((top / "wrong").rglob("*")) if path.is_file()]
    return [str(path) for path in found if len(path.parts) != 3 or path.parts[1] not in crates or path.suffix not in (".edit", ".md")]


def planted(wrong: Wrong, folder: pathlib.Path) -> Planted:
    """Applies the wrong body to the crate in this folder. Raises `Inapplicable` if it does not apply, or changes nothing."""
    path, old = "", ""
    texts: Dict[str, str] = {}
    functions: Dict[str, None] = {}
    for line in wrong.path.read_text(encoding="utf-8").split("\n"):
        if line.startswith("file: "):
            path = line[len("file: "):].strip()
        elif line.startswith("old: "):
            old = line[len("old: "):]
        elif line.startswith("new:"):
            text = texts[path] if path in texts else _text_of(folder, path)
            if not old or text.count(old) != 1:
                raise Inapplicable(f"its old text stands {text.count(old) if old else 0} times in {path}, and not once")
            function = function_at(path, text, text.index(old))
            if function is not None:
                functions[function] = None
            new = line[len("new:"):]
            texts[path], old = text.replace(old, new[1:] if new.startswith(" ") else new), ""
    if not any(text != _text_of(folder, name) for name, text in texts.items()):
        raise Inapplicable("it changes nothing")
    return Planted(texts, list(functions))


def _text_of(folder: pathlib.Path, path: str) -> str:
    parts = pathlib.PurePosixPath(path).parts
    if not parts or parts[0] not in PARTS or ".." in parts or not (folder / path).is_file():
        raise Inapplicable(f"there is no file {path or 'named'} below src/, specs/ or proofs/")
    return (folder / path).read_text(encoding="utf-8")


def function_at(path: str, text: str, place: int) -> Optional[str]:
    """The function around a place in a file, by its module, its type and its name; None if no function is there."""
    heads = list(FUNCTION.finditer(text, 0, text.find("\n", place)))
    if not path.startswith("src/") or not heads or text.find("\n}\n", heads[-1].end(), place) >= 0:
        return None
    words = [word for word in pathlib.PurePosixPath(path).with_suffix("").parts[1:] if word not in ("lib", "main")]
    is_method = bool(heads[-1].group(1))
    impls = list(IMPL.finditer(text, 0, heads[-1].start())) if is_method else []
    if impls and impls[-1].start() > text.rfind("\n}\n", 0, heads[-1].start()):
        words.append(_type_of(impls[-1].group(1)))
    return "::".join([*words, heads[-1].group(2)])


def _type_of(head: str) -> str:
    """The name of an `impl` block: its type, and behind it the trait if there is one, as `RefusalDisplay`."""
    while ARGUMENTS.search(head):
        head = ARGUMENTS.sub("", head)
    names = [name.strip().rpartition("::")[2] for name in head.partition(" where ")[0].split(" for ")]
    return "".join(reversed(names))
