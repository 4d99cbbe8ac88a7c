"""Joins stimuli: their lines by clock, and of one clock in the order of the files."""

from heapq import merge
from pathlib import Path
from typing import Optional

from piotool.calls import Fault, read_text
from piotool.stimulus_model import MOST_LINES, Reader, fields_of

Place = tuple[int, int, int, list[bytes]]  # clock, file, line, fields


def lines_of(path: str | Path, number: int, last_machine: int) -> tuple[int, list[Place], list[str]]:
    """The version, the lines and the comments of a file without a fault."""
    reader, lines, comments = Reader(last_machine), [], []
    for place, line in enumerate(read_text(path).split("\n"), 1):
        fields = fields_of(line.encode())
        if not fields and line.startswith("#"):
            comments.append(line.rstrip())
        if not fields:
            continue
        if code := reader.read(fields):
            raise Fault(f"{path}: line {place}: {code}")
        if fields[0] != b"version":
            lines.append((reader.clock, number, place, fields))
    return reader.version or 1, lines, comments


def joined(paths: list[str], last_machine: int = 3) -> str:
    """The text of these stimuli as one."""
    read = [lines_of(path, number, last_machine) for number, path in enumerate(paths)]
    version = max(version for version, _, _ in read)
    both, known = Reader(last_machine), {}
    both.read([b"version", str(version).encode()])
    text = [comment for _, _, comments in read for comment in comments] + (["version 2"] if version == 2 else [])
    count = int(version == 2)
    for _, number, place, fields in merge(*(lines for _, lines, _ in read)):
        if code := both.read(fields):
            raise Fault(f"{paths[number]}: line {place}: {code}{beside(fields, known, paths)}")
        known[key_of(fields)] = number, place
        count += 1
        text.append(b" ".join(fields).decode())
    if count > MOST_LINES:
        raise Fault(f"{', '.join(paths)}: {count} lines, and a stimulus has at most {MOST_LINES}: T5")
    return "".join(line + "\n" for line in text)


def key_of(fields: list[bytes]) -> tuple[bytes, ...]:
    """What two lines that crowd each other have in common."""
    word = b"able" if fields[1] in (b"enable", b"disable") else fields[1]
    return (word, fields[2]) if word in (b"feed", b"drain") else (word, fields[2], fields[0])


def beside(fields: list[bytes], known: dict[tuple[bytes, ...], tuple[int, int]], paths: list[str]) -> str:
    """The line that another one crowds, as text."""
    other: Optional[tuple[int, int]] = known.get(key_of(fields))
    return f", beside {paths[other[0]]} line {other[1]}" if other else ""
