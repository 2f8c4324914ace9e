"""A folder of shards. Any machines judge the shards one by one, in any order. At the end the results are joined.

    shards.json   the history, the options, and the name and the checksum of each shard. It is written last
    NAME.edn      a shard: a history for one check. Its first line has the options
    NAME.map      the keys of the shard, and the place of each event in the history
    NAME.out      the report on it, below the checksum of the shard. It is written whole or not at all
"""
from __future__ import annotations

import array
import hashlib
import json
import os
import re
import sys
from typing import Any, Dict, List, NamedTuple, Optional, Sequence, Tuple

from ..history.kinds import model_of
from ..program import Options
from ..tools.command import write_file
from .batches import Batch, KeyMap
from .doubt import ShardsError
from .routing import NUMBERS
from .source import File

MANIFEST, TEXT, MAP, OUT = "shards.json", ".edn", ".map", ".out"
VERSION = 1
FIRST = re.compile(rb"; a shard of jepmon: --concurrency ([0-9]+) --model ([a-z-]+) --budget ([0-9]+)( --by-ends)?\n")
CHECKSUM = "; of the shard "


class Written(NamedTuple):
    """A shard that was written."""

    name: str
    checksum: str
    model: str


class Manifest(NamedTuple):
    """The content of shards.json."""

    history: File
    options: Options
    shards: List[Written]


def first_line(options: Options, threads: int) -> bytes:
    by_ends = b" --by-ends" if options.by_ends else b""
    return b"; a shard of jepmon: --concurrency %d --model %b --budget %d%b\n" % (threads, options.model.encode(), options.budget, by_ends)


def checksum_of(text: bytes) -> str:
    return hashlib.blake2b(text, digest_size=16).hexdigest()


def write_shard(folder: str, name: str, batch: Batch, options: Options, threads: int) -> Written:
    """Writes a shard and its map."""
    text = first_line(options, threads) + batch.text
    path = os.path.join(folder, name)
    try:
        with open(path + TEXT, "wb") as file:
            file.write(text)
        with open(path + MAP, "wb") as file:
            file.write(json.dumps({"keys": batch.keys, "order": sys.byteorder}).encode() + b"\n")
            batch.places.tofile(file)
    except OSError as fault:
        raise ShardsError(f"{path}: {fault.strerror}") from fault
    return Written(name, checksum_of(text), options.model)


def read_shard(path: str) -> Tuple[bytes, Options]:
    """Reads the text of a shard, and the options of its check."""
    try:
        with open(path, "rb") as file:
            text = file.read()
    except OSError as fault:
        raise ShardsError(f"{path}: {fault.strerror}") from fault
    match = FIRST.match(text)
    if match is None:
        raise ShardsError(f"{path}: this is not a shard, as jepmon-shards split writes them")
    return text, Options(int(match.group(1)), model_of(match.group(2).decode()), int(match.group(3)), by_ends=match.group(4) is not None)


def read_map(folder: str, name: str) -> Tuple[List[KeyMap], Sequence[int]]:
    """The keys of a shard, and the places of its events."""
    path = os.path.join(folder, name + MAP)
    try:
        with open(path, "rb") as file:
            told = json.loads(file.readline())
            places = array.array(NUMBERS, file.read())
        if told["order"] != sys.byteorder:
            places.byteswap()
        return [KeyMap(*key) for key in told["keys"]], places
    except OSError as fault:
        raise ShardsError(f"{path}: {fault.strerror}") from fault
    except (ValueError, KeyError, TypeError) as fault:
        raise ShardsError(f"{path}: this is not a map of a shard, or not a whole one") from fault


# --- Reports ---


def write_report(path: str, checksum: str, report: str) -> None:
    write_file(path, f"{CHECKSUM}{checksum}\n{report}")


def read_report(path: str, checksum: str) -> Optional[str]:
    """The report on the shard with this checksum. None if there is no such report."""
    try:
        with open(path, encoding="utf-8", errors="replace") as file:
            first, report = file.readline(), file.read()
    except FileNotFoundError:
        return None
    except OSError as fault:
        raise ShardsError(f"{path}: {fault.strerror}") from fault
    return report if first == f"{CHECKSUM}{checksum}\n" and report.endswith("\n") else None


# --- The manifest ---


def write_manifest(folder: str, manifest: Manifest) -> None:
    told: Dict[str, Any] = {
        "version": VERSION, "history": manifest.history._asdict(), "options": manifest.options._asdict(),
        "shards": [list(shard) for shard in manifest.shards],
    }
    write_file(os.path.join(folder, MANIFEST), json.dumps(told, indent=1) + "\n")


def read_manifest(folder: str) -> Manifest:
    path = os.path.join(folder, MANIFEST)
    try:
        with open(path, encoding="utf-8") as file:
            told = json.load(file)
        if told["version"] != VERSION:
            raise ShardsError(f"{path}: it is of another version of jepmon-shards")
        return Manifest(File(**told["history"]), Options(**told["options"]), [Written(*shard) for shard in told["shards"]])
    except FileNotFoundError as fault:
        raise ShardsError(f"{folder}: there are no shards in this folder, or jepmon-shards split was cut off") from fault
    except OSError as fault:
        raise ShardsError(f"{path}: {fault.strerror}") from fault
    except (ValueError, KeyError, TypeError) as fault:
        raise ShardsError(f"{path}: jepmon-shards split has not written this file") from fault
