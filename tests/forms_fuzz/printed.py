"""A history of known verdict as a person's test prints it: the forms, the variations of each, and the files that come of them."""
from __future__ import annotations

import gzip
import json
import random
from typing import Any, Callable, Dict, List, NamedTuple, Sequence

from . import jepsen, logs, recorders, rows
from .fields import CLIENTS, KEYS, MISSING, OUTCOMES, TIMES, VALUES, WORDS, Variations, options_of
from .histories import Op
from .rows import MAPPED


class Printed(NamedTuple):
    """Files by name, and the words of the command line that judge them."""

    files: Dict[str, bytes]
    words: List[str]


Printer = Callable[[Sequence[Op], Variations, random.Random], str]
PRINTERS: Dict[str, Printer] = {
    "oprows": lambda ops, ways, chance: rows.as_json(rows.ordered(rows.of_operations(ops, ways), ways, chance), ways),
    "evrows": lambda ops, ways, chance: rows.as_json(rows.ordered(rows.of_events(ops, ways), ways, chance), ways),
    "opcsv": lambda ops, ways, chance: rows.as_csv(rows.ordered(rows.of_operations(ops, ways), ways, chance), ways),
    "evcsv": lambda ops, ways, chance: rows.as_csv(rows.ordered(rows.of_events(ops, ways), ways, chance), ways),
    "edn": jepsen.events,
    "log": jepsen.log,
    "etcd": lambda ops, ways, _: recorders.etcd(ops, ways),
    "porcupine": lambda ops, ways, _: recorders.porcupine(ops, ways),
    "slog": logs.slog, "logfmt": logs.logfmt, "lines": logs.lines, "headless": logs.headless, "otlp": logs.otlp,
}
MAPPINGS = {"lines": logs.line_mapping(), "headless": logs.headless_mapping()}  # the mapping files that users write for these forms
SAID = {"slog": ["--map", "msg=type"], "logfmt": ["--map", "msg=type"]}  # and what they say on the command line
REGISTERS_ALONE = ("etcd", "porcupine")
OF_EVENTS = ("evrows", "evcsv", "edn", "log", "slog", "logfmt", "lines")

# The ways of a variation that has several; each other variation is there or not.
CHOICES: Dict[str, Sequence[Any]] = {
    "names": list(rows.TIME_NAMES), "types": list(rows.TYPES), "words": list(WORDS), "outcome": list(OUTCOMES), "values": list(VALUES),
    "keys": list(KEYS), "answers": list(rows.ANSWERS), "times": list(TIMES), "clients": list(CLIENTS), "missing": list(MISSING),
    "keyname": ("key", "k", "path", "account", "two", "twoknown"), "order": ("call", "clients", "shuffled", "reversed"),
    "casnames": ("old", "expected", "pair"), "setread": ("set", "list"), "delimiter": (",", ";", "\t"),
    "several": ("clients", "nodes", "rotated", "rotated back"), "error": (1, 3, 10),
}
UNITS = {"iso": "ms", "isoz": "ms", "float": "ms", "epochns": "us"}  # of one mark, by the way of the times
EDN_KEYS = list(KEYS) + ["kw", "ns"]
BYTES = "crlf blank bom cut gz"
ROWS = f"keyname alikekeys missing words outcome values keys answers times clients order extra ids dup stringly said skew error several mapped nokeys {BYTES}"
LOGGED = f"words values keys alikekeys times clients order extra dup shortend stringly said skew error several nokeys {BYTES}"
# The variations that a form looks at, so that none is idle.
USED: Dict[str, List[str]] = {form: names.split() for form, names in {
    "oprows": f"{ROWS} unitmix names casnames nullret array wrapped ascii",
    "opcsv": f"{ROWS} unitmix names casnames delimiter pybool",
    "evrows": f"{ROWS} types shortend nullvalue endsay notime starts array wrapped",
    "evcsv": f"{ROWS} types shortend endsay notime starts delimiter",
    "edn": f"values keys alikekeys clients order setread tuplemap nil_fail newprocess keyfield index typefirst pprint record nemesis notime inst dup array "
           f"stringly said skew several nokeys {BYTES}",
    "log": "values prefix nemesis crlf blank bom cut gz dup several nokeys",
    "etcd": "crlf bom cut gz several",
    "porcupine": "gozero said unknown crlf bom cut gz several",
    "slog": f"{LOGGED} array ascii nullvalue", "logfmt": f"{LOGGED} nullvalue", "lines": f"{LOGGED} others",
    "headless": f"values keys times clients order dup casnames delimiter stringly skew error several nokeys {BYTES}",
    "otlp": "values keys alikekeys words order pretty stringly nokeys crlf bom cut gz",
}.items()}
OFTEN = [form for form in ("oprows", "evrows", "opcsv", "evcsv", "edn") for _ in range(3)]  # forms with many variations, three times as often
FORMS = OFTEN + [form for form in PRINTERS if form not in OFTEN]


def drawn(chance: random.Random, form: str, nokeys: bool) -> Variations:
    """One to four variations of the form; `seed` determines the printer's choices."""
    ways: Variations = {"form": form, "seed": chance.randrange(1 << 30)}
    for _ in range(chance.choice((1, 1, 2, 2, 3, 4))):
        name = chance.choice(USED[form])
        if name != "nokeys":
            ways[name] = chance.choice(EDN_KEYS if (form, name) == ("edn", "keys") else CHOICES.get(name, (1,)))
    if nokeys:
        ways["nokeys"] = 1
        ways.pop("keyname", None)
    return ways


def printed(ops: Sequence[Op], model: str, ways: Variations) -> Printed:
    chance = random.Random(ways.get("seed", 0))
    ways = settled(ways)
    words = ["--model", model] if model == "unordered-queue" else []
    words += SAID.get(ways["form"], [])
    words += options_of(ways) if ways.get("said") else []
    mapping = {"mapping.json": json.dumps(MAPPINGS[ways["form"]]).encode()} if ways["form"] in MAPPINGS else {}
    words += [word for name in mapping for word in ("--mapping", name)]
    if "error" in ways:
        words += ["--skew", f"{ways['error']}{UNITS[ways['times']]}"]
    texts = several(ops, ways, chance) if "several" in ways else {"history": PRINTERS[ways["form"]](ops, ways, chance)}
    if "mapped" in ways:
        words += [word for name, meaning in MAPPED.items() if any(name in text for text in texts.values())
                  for word in ("--map", f"{name}={meaning}")]
    files = {name: as_bytes(text, {**ways, "cut": ways.get("cut") and place == len(texts) - 1}, chance)
             for place, (name, text) in enumerate(texts.items())}
    return Printed({**files, **mapping}, [*texts, *words])


def settled(ways: Variations) -> Variations:
    """The variations without those that make no sense together."""
    if "error" in ways and (ways.get("times") not in UNITS or ways.get("skew")):
        ways = {**ways, "times": "iso", "skew": 0}
    if "error" in ways:  # which is stated in the unit of the times
        ways = {name: way for name, way in ways.items() if name != "unitmix"}
    if ways["form"] == "otlp" and ways.get("values") == "obj":
        ways = {**ways, "values": "objval"}  # the order of its members is of the text
    if "several" in ways:  # an index and new processes are of the whole history
        ways = {name: way for name, way in ways.items() if name not in ("index", "newprocess", "array", "wrapped", "order")}
    return ways


def several(ops: Sequence[Op], ways: Variations, chance: random.Random) -> Dict[str, str]:
    """The history as several files: one of each client, one of each of two nodes, or one log in two pieces, given in order or not."""
    printer = PRINTERS[ways["form"]]
    way = ways["several"]
    if way in ("clients", "nodes"):
        of = {op.client if way == "clients" else op.client % 2 for op in ops}
        parts = {f"n{node}": [op for op in ops if node == (op.client if way == "clients" else op.client % 2)] for node in sorted(of)}
        return {name: printer(part, ways, chance) for name, part in parts.items()}
    lines = printer(ops, ways, chance).splitlines(True)
    head, lines = (lines[:1], lines[1:]) if "csv" in ways["form"] else ([], lines)
    place = chance.randrange(len(lines) + 1)
    pieces = [("log.1", lines[:place]), ("log", lines[place:])]
    return {name: "".join(head + piece) for name, piece in (pieces if way == "rotated" else reversed(pieces)) if piece}


def as_bytes(text: str, ways: Variations, chance: random.Random) -> bytes:
    raw = text.encode()
    if ways.get("crlf"):
        raw = raw.replace(b"\n", b"\r\n")
    if ways.get("blank"):
        raw = raw.replace(b"\n", b"\n\n", 2)
    if ways.get("bom"):
        raw = b"\xef\xbb\xbf" + raw
    if ways.get("cut"):
        raw = raw[:-chance.randrange(2, 12)]
    return gzip.compress(raw) if ways.get("gz") else raw
