#!/usr/bin/env python3
"""The layers of the crates, by the headings of crates.txt, with the lines of each: prints the drawing of docs/ARCHITECTURE.md.
`faults` compares: the names must be the same, and each number within a tenth."""
import pathlib
import re
import sys
import textwrap
from typing import Iterator, List, NamedTuple, Tuple

TOP = pathlib.Path(__file__).resolve().parent.parent
DOCUMENT = TOP / "docs" / "ARCHITECTURE.md"
FOLDERS = (("src", "*.rt"), ("specs", "*.antt"), ("proofs", "*.antt"))
WIDTH = 62
TOLERANCE = 0.1
ROW = re.compile(r"\| (.{%d}) \| +([\d,]+) \| +([\d,]+) \| +([\d,]+) \|" % WIDTH)


class Layer(NamedTuple):
    name: str
    crates: List[str]

    def lines(self) -> Tuple[int, ...]:
        """How many lines of code, of definitions and of proofs."""
        return tuple(sum(len(path.read_text(encoding="utf-8").splitlines()) for crate in self.crates
                         for path in (TOP / "crates" / crate / folder).rglob(pattern)) for folder, pattern in FOLDERS)


def layers() -> List[Layer]:
    """Lowest first."""
    found: List[Layer] = []
    for line in (TOP / "crates.txt").read_text(encoding="utf-8").splitlines()[1:]:
        if line.startswith("#"):
            found.append(Layer(line.lstrip("# "), []))
        elif line.strip():
            found[-1].crates.append(re.split(r"[: ]", line)[0])
    return found


def drawing() -> Iterator[str]:
    """The program depends on the crates below it."""
    edge = f"+{'-' * (WIDTH + 2)}+--------+--------+--------+"
    yield edge
    yield f"| {'highest first':{WIDTH}} |   code | defin. | proofs |"
    for layer in reversed(layers()):
        yield edge
        code, definitions, proofs = layer.lines()
        yield f"| {layer.name:{WIDTH}} | {code:6,} | {definitions:6,} | {proofs:6,} |"
        for line in textwrap.wrap(" ".join(layer.crates), WIDTH - 2):
            yield f"|   {line:{WIDTH - 2}} |        |        |        |"
    yield edge


def numbers(line: str) -> List[int]:
    row = ROW.fullmatch(line)
    return [int(part.replace(",", "")) for part in row.groups()[1:]] if row else []


def faults() -> List[str]:
    """The faults of the drawing in the document."""
    block = re.search(r"```text\n(\+-.*?)\n```", DOCUMENT.read_text(encoding="utf-8"), re.S)
    shown, wanted = (block[1].splitlines() if block else []), list(drawing())
    if [ROW.sub(r"\1", line) for line in shown] != [ROW.sub(r"\1", line) for line in wanted]:
        return ["the layers are not those of crates.txt: tests/layers.py prints them"]
    return [f"{line}: there are {there} lines" for line, right in zip(shown, wanted) for said, there in zip(numbers(line), numbers(right))
            if abs(said - there) > TOLERANCE * there]


if __name__ == "__main__":
    sys.stdout.write("\n".join(drawing()) + "\n")
