"""The patterns of hard sentences, by the rules of docs/STYLE.md."""
import pathlib
import re
from typing import Iterator, NamedTuple

from .texts import Sentence

LONGEST = 32


class Warned(NamedTuple):
    path: pathlib.Path
    line: int
    found: str
    advice: str


# Words for known things that readers have to guess: a pattern, and what to write.
COINED = [(re.compile(pattern), advice) for pattern, advice in (
    (r"\bwants? of memory\b|\bwant(?:s|ed)? memory\b", "out of memory, or an allocation that fails"),
    (r"\bstands? on\b(?! (?:standard|disk|the (?:disk|line|page|PATH|path)))", "depends on"),
    (r"\b(?:is|are|was|were|be) (?:lent|told)\b", "is borrowed, passed, recorded or reported"),
    (r"\btells? (?:the|it|an?) `?:(?:ok|fail|info)`?", "record"),
    (r"\blongest front\b|\bfront of the (?:text|history|input)\b|\bfronts? of\b", "prefix"),
    (r"\b[Tt]akes? the (?:time|work) of\b", "O(..)"),
    (r"\banew\b", "again, or from scratch"),
    (r"\bso many\b(?!\s+(?:that|different))", "N, or that many"),
    (r"(?<!there )(?<!There )\b(?:is|are|was|were|be) no (?!longer\b|shorter\b|greater\b|more\b|less\b|fewer\b|need\b|way\b|use\b|such\b|"
     r"reason\b|wrong\b|one\b|doubt\b)[a-z]+", "is not a .."),
    (r"\bbut for\b", "except for"),
    (r"\b(?:go|goes|gone) out\b|\bmay go\b|\btakes? the latter away\b", "is removed"),
    (r"\bbrought in\b|\bbrings? (?:it|a value|its value|its own value) in\b", "written or enqueued by"),
    (r"\bto blame\b|\bspoil(?:ed|s)?\b", "responsible, or corrupted"),
    (r"\bnobody waits\b|\bwaits? for nobody\b", "does not block"),
    (r"\bof our own\b", "our own X"),
)]
BE = r"(?:is|are|was|were|be|been|being|am)"
IRREGULAR = (r"(?:done|made|given|taken|known|shown|kept|held|told|read|found|put|sent|lent|left|said|seen|drawn|run|written|cut|lost|brought|"
             r"built|begun|gone|set|met|thrown|chosen|spelt|judged)")
PASSIVE = re.compile(rf"\b{BE}(?: (?:not|never|also|then|thus|only|so|still|just|all|each|both|once|first))* (?:\w+ed|{IRREGULAR})\b")
HEADLESS = re.compile(r"^(?:What|Whose|Who|That(?= (?:a|an|the|it|they|each|every|no|some|he|one|two|its)\b))\b")
OF_FIRST = re.compile(r"^Of (?!course\b)")
MIDDLE = re.compile(r"(?:,|;|:|\bby|\bof|\bfor|\bto|\bwith|\bfrom|\bbeside|\bthan|\bon|\bin) what (?!follows\b|happen(?:s|ed)\b)"
                    r"(?:is|are|was|were|has|have|had|can|may|must|came|left|the|it|an?|each|they|would|will|[a-z]+s)\b")
SAYING = re.compile(r"\b(?:sa(?:y|ys|id|ying)|show\w*|tells?|lists?|names?|describes?|know\w*|explain\w*|see[sn]?|ask\w*|finds?|looks?|decides?|learns?|"
                    r"note|checks?|depends?|how|why|whether|matter)\b")
RELATIVE = re.compile(r", (?:of|from|by|behind|beside) (?:which|whom|whose|what)\b")
BACK = re.compile(r"\b(?:the latter|the former|the one from the other|the other one)\b")


def of_start(one: Sentence, words: int) -> Iterator[str]:
    """How the sentence begins, if it begins badly."""
    if one.kind == "title" or words < 5 or one.text.rstrip("*_\"')").endswith("?"):
        return
    begin = HEADLESS.match(one.text)
    if begin and not (begin[0] == "That" and one.is_item):
        yield "name the subject: 'the value that ..', 'the program ..'"
    if OF_FIRST.match(one.text):
        yield "subject first; put 'of ..' behind its noun"


def of_words(one: Sentence, words: int) -> Iterator[Warned]:
    """The faults within the sentence."""
    def warned(found: str, advice: str) -> Warned:
        return Warned(one.path, one.line, found, advice)

    if words >= 5:
        for match in MIDDLE.finditer(one.text):
            if not SAYING.search(one.text[:match.start()]):        # an indirect question: 'says what it does and what it costs'
                yield warned(match[0].strip(" ,;:"), "name the thing: 'the events that ..', not 'what ..'")
        for match in RELATIVE.finditer(one.text):
            yield warned(match[0].strip(" ,"), "start a new sentence, or 'whose ..', 'including ..'")
    if words > LONGEST:
        yield warned(f"{words} words: {' '.join(one.text.split()[:6])} ..", f"split: at most {LONGEST} words")
    passives = PASSIVE.findall(one.text)
    if len(passives) >= 3:
        yield warned("; ".join(passives), "name who does it, at least once")
    back = BACK.search(one.text)
    if back and one.kind != "cell":
        yield warned(back[0], "repeat the noun")
    for pattern, advice in COINED:
        for match in pattern.finditer(one.text):
            yield warned(match[0], advice)


def warnings_of(one: Sentence) -> Iterator[Warned]:
    words = len(re.findall(r"[A-Za-z][\w'-]*", one.text))
    if one.kind == "title" and one.text.endswith("?"):
        yield Warned(one.path, one.line, one.text, "a title is a topic or a decision")
        return
    for advice in of_start(one, words):
        yield Warned(one.path, one.line, " ".join(one.text.split()[:8]), advice)
    yield from of_words(one, words)
