"""Which calls of the system a worked call makes: which files it opens, how it reads them, and in how many pieces its output leaves.

No clause ties a real file or a real output to what the program is proved to ask of it, so the system's own record is looked at here, by
strace. What the loader and the start of the C library do before it is left out.
"""

import re
import subprocess
from dataclasses import dataclass, field
from pathlib import Path
from typing import IO

# What is gathered of an output before it leaves in one write, and the most that is put at once: the lines of one clock.
ROOM, PUT = 131_072, 4_096
OPENED = re.compile(r'openat\(AT_FDCWD, "(.*)", (\S+)\) = (-?\d+)')
MOVED = re.compile(r"(read|write)\((\d+), .*\) += (-?\d+)")
REFUSED = re.compile(r"^write\(1, .*, (\d+)\) += -1", re.M)
CLOSED = re.compile(r"close\((\d+)\) +=")
NAMED = re.compile(r"(\w+)\(")
# The first call of the program itself: a write to a pipe that nobody reads shall be a failure, and no signal.
FIRST = "rt_sigaction(SIGPIPE, "
# What else it may ask of the system: memory, random bits (of the allocator), and its end.
OTHERS = {"brk", "getrandom", "mmap", "munmap", "mremap", "madvise", "exit_group"}
READ_ONLY = "O_RDONLY|O_NOCTTY|O_CLOEXEC"


@dataclass
class Record:
    """What a call asked of the system after it was loaded."""

    files: list[str] = field(default_factory=list)
    # Bytes of each read and write, by the number of the file.
    reads: dict[int, list[int]] = field(default_factory=dict)
    writes: dict[int, list[int]] = field(default_factory=dict)
    faults: list[str] = field(default_factory=list)


def noted(record: Record, line: str) -> None:
    """Takes one line of strace into the record."""
    if opened := OPENED.match(line):
        name, how, number = opened[1], opened[2], int(opened[3])
        record.files.append(name)
        if how != READ_ONLY:
            record.faults.append(f"opens {name} with {how}")
        if number in record.reads and not is_read_once(record.reads[number]):
            record.faults.append(f"leaves a file before {name} unread")
        record.reads[number] = []
    elif moved := MOVED.match(line):
        of = record.reads if moved[1] == "read" else record.writes
        of.setdefault(int(moved[2]), []).append(int(moved[3]))
    elif not CLOSED.match(line) and (named := NAMED.match(line)) and named[1] not in OTHERS:
        record.faults.append(f"calls {named[1]}")


def record_of(text: str) -> Record:
    """The record of a call, from what strace wrote."""
    record, is_loaded = Record(), False
    for line in text.splitlines():
        if is_loaded:
            noted(record, line)
        is_loaded = is_loaded or line.startswith(FIRST)
    if not is_loaded:
        record.faults.append("never begins")
    return record


def are_full(writes: list[int], length: int) -> bool:
    """Whether an output of so many bytes leaves in these pieces: all of it, and each but the last as the next put has no room."""
    return sum(writes) == length and all(ROOM - PUT < it <= ROOM for it in writes[:-1]) and all(0 < it <= ROOM for it in writes[-1:])


def is_read_once(reads: list[int]) -> bool:
    """A file is read up to its end, and no further."""
    return bool(reads) and reads[-1] == 0 and 0 not in reads[:-1] and min(reads) >= 0


def flaws(record: Record, files: list[str], out: int, err: int) -> list[str]:
    """What isn't as it should be of a call that names these files in this order, and writes so many bytes to its two outputs."""
    told = list(record.faults)
    if record.files != files:
        told.append(f"opens {record.files}, and not {files}")
    for number, reads in record.reads.items():
        if not is_read_once(reads):
            told.append(f"reads file {number} by {reads} bytes")
    if not are_full(record.writes.get(1, []), out):
        told.append(f"writes {out} bytes to its output by {record.writes.get(1, [])}")
    if record.writes.get(2, []) != ([err] if err else []):
        told.append(f"writes {record.writes.get(2, [])} bytes to standard error, and not {err} at once")
    if set(record.writes) - {1, 2}:
        told.append("writes to another file")
    return told


def recorded(program: str, words: list[str], log: Path, out: int | IO[bytes]) -> tuple[str, subprocess.CompletedProcess[bytes]]:
    """What strace wrote of one call, and how it ended."""
    traced_words = ["strace", "-f", "-s", "0", "-o", log, program, *words]
    ended = subprocess.run(traced_words, stdout=out, stderr=subprocess.PIPE, timeout=60)
    return "\n".join(re.sub(r"^\d+ +", "", line) for line in log.read_text(errors="replace").splitlines()), ended


def traced(program: str, words: list[str], files: list[str], log: Path) -> tuple[list[str], subprocess.CompletedProcess[bytes]]:
    """The flaws of one call under strace, and how it ended."""
    text, ended = recorded(program, words, log, subprocess.PIPE)
    return flaws(record_of(text), files, len(ended.stdout), len(ended.stderr)), ended


def goes_on(program: str, words: list[str], log: Path) -> list[str]:
    """What a call does after an output that is full: one write fails, and nothing is put after it. What the writer holds it tries once
    more when it is let go, as Rust's does."""
    with Path("/dev/full").open("wb") as full:
        text, ended = recorded(program, words, log, full)
    record, refused = record_of(text), REFUSED.findall(text)
    told = list(record.faults)
    if record.writes.get(1) != [-1, -1] or len(set(refused)) != 1:
        told.append(f"writes to a full output by {record.writes.get(1)}, of {refused} bytes")
    if record.writes.get(2) != [len(ended.stderr)] or ended.returncode != 5:
        told.append(f"status {ended.returncode}, {ended.stderr!r}")
    return told
