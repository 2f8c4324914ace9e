"""The sentences of the repository's prose, each with its file and line: Markdown, comments in .rt and .antt files, docstrings, comments
and messages in Python."""
import ast
import inspect
import io
import pathlib
import re
import tokenize
from typing import Iterable, Iterator, List, NamedTuple, Set, Tuple

ABBREVIATION = re.compile(r"\b(?:e\.g|i\.e|vs|etc|cf|No)\.$")
LEAST_WORDS_OF_A_MESSAGE = 6


class Sentence(NamedTuple):
    path: pathlib.Path
    line: int
    text: str
    kind: str            # text, cell, title or message
    is_item: bool


class Paragraph(NamedTuple):
    line: int
    text: str
    kind: str            # text, item, cell, title or message


def split(text: str) -> List[str]:
    """The sentences of a paragraph. A point inside a word, a number or `..` ends none."""
    found, start = [], 0
    for match in re.finditer(r"(?<![.\d])[.!?](?=[\"')\]*_]*\s+[\"'(*_`\[]*[A-Z`])", text):
        if not ABBREVIATION.search(text[:match.end()]):
            found.append(text[start:match.end()].strip())
            start = match.end()
    found.append(text[start:].strip())
    return [one.lstrip("*_\"') ") for one in found if one]


def plain(text: str) -> str:
    """Markdown without code spans, link targets and emphasis; code becomes one word, CODE."""
    text = re.sub(r"``[^`]+``|`[^`]+`", "CODE", text)
    text = re.sub(r"!?\[([^\]]*)\]\([^)]*\)", r"\1", text)
    return re.sub(r"\*\*|__|(?<!\w)\*(?=\w)|(?<=\w)\*(?!\w)", "", text)


class Paragraphs:
    """The paragraphs of Markdown-like lines, taken one line after the other. An entry of a list of names, `NAME  TEXT`, is an item."""

    def __init__(self) -> None:
        self.found: List[Paragraph] = []
        self.line, self.parts = 0, [""][:0]
        self.is_fenced = self.is_item = False

    def end(self) -> None:
        if self.parts:
            self.found.append(Paragraph(self.line, " ".join(self.parts), "item" if self.is_item else "text"))
            self.parts = []
        self.is_item = False

    def begin_at(self, number: int, text: str) -> None:
        if not self.parts:
            self.line = number
        self.parts.append(text)

    def take(self, number: int, line: str) -> None:
        bare = line.strip()
        item = re.match(r"(?:[-*+]|\d+\.) +(.*)", bare) or re.match(r"[\w./<>-]+(?: [A-Z]+)? {2,}(\S.*)", bare)
        if re.match(r"\s*(```|~~~)", line):
            self.end()
            self.is_fenced = not self.is_fenced
        elif self.is_fenced or (re.match(r"\s{4,}\S", line) and not self.parts):
            pass
        elif not bare or bare.startswith(("<", "[//]")):
            self.end()
        elif bare.startswith("#"):
            self.end()
            self.found.append(Paragraph(number, bare.lstrip("# "), "title"))
        elif bare.startswith("|"):
            self.end()
            if not re.fullmatch(r"[|\s:-]+", bare):
                self.found += [Paragraph(number, cell.strip(), "cell") for cell in bare.strip("|").split("|") if cell.strip()]
        elif item:
            self.end()
            self.is_item = True
            self.begin_at(number, item[1])
        else:
            self.begin_at(number, bare)


def paragraphs(numbered: Iterable[Tuple[int, str]]) -> List[Paragraph]:
    taken = Paragraphs()
    for number, line in numbered:
        taken.take(number, line)
    taken.end()
    return taken.found


def of_rattle(text: str) -> List[Paragraph]:
    """Runs of comments that are whole lines."""
    found: List[Paragraph] = []
    block: List[Tuple[int, str]] = []
    for number, line in enumerate(text.split("\n") + [""], 1):
        match = re.match(r"\s*(?://[/!]?|--) ?(.*)", line)
        if match:
            block.append((number, match[1]))
        elif block:
            found += paragraphs(block)
            block = []
    return found


def docstrings(tree: ast.Module) -> Iterator[Tuple[ast.Constant, List[Paragraph]]]:
    for node in ast.walk(tree):
        if isinstance(node, (ast.Module, ast.ClassDef, ast.FunctionDef, ast.AsyncFunctionDef)) and node.body:
            first = node.body[0]
            if isinstance(first, ast.Expr) and isinstance(first.value, ast.Constant) and isinstance(first.value.value, str):
                lines = inspect.cleandoc(first.value.value).split("\n")
                yield first.value, paragraphs((first.value.lineno + place, line) for place, line in enumerate(lines))


def messages(tree: ast.Module, left_out: Set[int]) -> Iterator[Paragraph]:
    """Texts of several words, which somebody reads."""
    parts = {id(value) for node in ast.walk(tree) if isinstance(node, ast.JoinedStr) for value in node.values}
    for node in ast.walk(tree):
        text = ""
        if isinstance(node, ast.JoinedStr):
            text = "".join(str(part.value) if isinstance(part, ast.Constant) else "CODE" for part in node.values)
        elif isinstance(node, ast.Constant) and isinstance(node.value, str) and id(node) not in left_out | parts:
            text = node.value
        if len(re.findall(r"\b[a-z]{2,}\b", text)) >= LEAST_WORDS_OF_A_MESSAGE and "<" not in text[:1] and "{" not in text:
            yield Paragraph(node.lineno, " ".join(text.split()), "message")


def comments(text: str) -> List[Paragraph]:
    found: List[Paragraph] = []
    block: List[Tuple[int, str]] = []
    for token in tokenize.generate_tokens(io.StringIO(text).readline):
        if token.type == tokenize.COMMENT and not token.line[:token.start[1]].strip() and not token.string.startswith("#!"):
            if block and token.start[0] != block[-1][0] + 1:
                found += paragraphs(block)
                block = []
            block.append((token.start[0], token.string.lstrip("# ")))
    return found + paragraphs(block)


def of_python(text: str, is_test: bool) -> List[Paragraph]:
    tree = ast.parse(text)
    documented = list(docstrings(tree))
    found = [one for _, several in documented for one in several]
    if not is_test:
        found += messages(tree, {id(node) for node, _ in documented})
    return found + comments(text)


def sentences_of(path: pathlib.Path) -> Iterator[Sentence]:
    text = path.read_text(encoding="utf-8", errors="replace")
    found: List[Paragraph] = []
    if path.suffix == ".md":
        found = paragraphs(enumerate(text.split("\n"), 1))
    elif path.suffix in (".rt", ".antt"):
        found = of_rattle(text)
    elif path.suffix == ".py":
        found = of_python(text, "tests" in path.parts)
    for one in found:
        if "prose: ok" in one.text:
            continue
        bare = plain(one.text)
        pieces = split(bare) if one.kind in ("text", "item", "message") else bare.split(";") if one.kind == "cell" else [bare]
        for piece in pieces:
            yield Sentence(path, one.line, piece.strip(), "text" if one.kind == "item" else one.kind, one.kind == "item")
