"""Runs and checks programs from tests of firmware, by the piotool on the path (docs/PYTHON.md)."""

import re
import tempfile
from contextlib import ExitStack
from dataclasses import dataclass, field
from os import PathLike
from pathlib import Path
from typing import Optional, Sequence, Union

from piotool.calls import Fault, piotool
from piotool.traces import Bit, read_values

File = Union[str, PathLike[str], Sequence[str]]
TOLD = re.compile(r"piotool: (source|config|stimulus) (?:line (\d+)|(\S+)): (\w+)\b.*")
NO_FILE = re.compile(r"piotool: (?:shelf|long) (source|config|stimulus)\b.*|piotool: (source|config|stimulus): .*")
SPAN = re.compile(r"piotool: (span .*)")
LINE = re.compile(r"span (\S+) (?:proved opens (yes|no)(?: closes (?:yes|no))?(?: under (?:prompt|assume|prompt, assume))?|unproved (?:at (\d+) .*|by machine (\d+)): (U\d))")
NAMES = {"source": "source.pio", "config": "config.toml", "stimulus": "stimulus.stim"}
TX_LEVEL, RX_LEVEL, WORD = "t", "r", "w"


class Refused(Fault):
    """A call that piotool refused: its status and its line; the file, and the line, key or code in it, where the line has them."""

    def __init__(self, told: str, status: int, paths: dict[str, str]) -> None:
        super().__init__(told)
        self.status = status
        found, missing = TOLD.fullmatch(told), NO_FILE.fullmatch(told)
        kind = found[1] if found else missing and (missing[1] or missing[2])
        self.file: Optional[str] = paths.get(kind) if kind else None
        self.line: Optional[int] = int(found[2]) if found and found[2] else None
        self.key: Optional[str] = found[3] if found else None
        self.code: Optional[str] = found[4] if found else None
        if span := SPAN.fullmatch(told):
            self.file, self.code = paths.get("config"), verdict_of(span[1]).cause

    def __str__(self) -> str:
        """The line, with the file that it is of."""
        place = self.file and f"{self.file}:{self.line}: " if self.line else f"{self.file}: " if self.file else ""
        return f"{place}{self.args[0]}"


@dataclass(frozen=True)
class Values:
    """A value over the clocks of a trace: the clocks in which it changes, each with the new value, from clock 0 on."""

    changes: tuple[tuple[int, int], ...]

    def at(self, clock: int) -> int:
        """The value in the sample of a clock."""
        return Bit([when for when, _ in self.changes], [value for _, value in self.changes]).at(clock)

    @property
    def last(self) -> int:
        """The value at the end."""
        return self.changes[-1][1] if self.changes else 0


@dataclass(frozen=True)
class Pin:
    """A pin over the clocks of a trace: the edges of its output level, each a clock with the level from then on.

    The first edge may be in clock 0, where the program makes it then: the level before is the configuration's, or 0.
    """

    edges: tuple[tuple[int, int], ...]
    level: Values
    direction: Values

    @property
    def rises(self) -> list[int]:
        """The clocks in which it rises."""
        return [clock for clock, level in self.edges if level]

    @property
    def falls(self) -> list[int]:
        """The clocks in which it falls."""
        return [clock for clock, level in self.edges if not level]

    @property
    def highs(self) -> list[int]:
        """The lengths of its pulses, in clocks."""
        return self.lengths(1)

    @property
    def lows(self) -> list[int]:
        """The lengths of the pauses between its pulses, in clocks."""
        return self.lengths(0)

    def lengths(self, level: int) -> list[int]:
        """How long it has a level, from edge to edge."""
        return [after[0] - edge[0] for edge, after in zip(self.edges, self.edges[1:]) if edge[1] == level]


@dataclass(frozen=True)
class Trace:
    """The trace of a run: its text, its clocks, and the levels of pins before clock 0."""

    text: str = field(repr=False)
    clocks: int
    values: dict[str, Values] = field(repr=False)
    before: frozenset[int] = frozenset()

    def pin(self, number: int) -> Pin:
        """A pin."""
        level = self.values[f"p{number}"]
        last, edges = int(number in self.before), []
        for clock, value in level.changes:
            if value != last:
                edges.append((clock, value))
            last = value
        return Pin(tuple(edges), level, self.values[f"d{number}"])

    def flag(self, number: int) -> Values:
        """An IRQ flag."""
        return self.values[f"f{number}"]

    def tx_level(self, machine: int) -> Values:
        """How many words TX of a machine has."""
        return self.values[f"{TX_LEVEL}{machine}"]

    def rx_level(self, machine: int) -> Values:
        """How many words RX of a machine has."""
        return self.values[f"{RX_LEVEL}{machine}"]

    def sticky(self, machine: int) -> Values:
        """The sticky flags of a machine: 1 TXOVER, 2 RXUNDER, 4 TXSTALL, 8 RXSTALL."""
        return self.values[f"s{machine}"]

    def words(self, machine: int) -> list[int]:
        """The words that the system read from RX of a machine, in order.

        A word shows where it differs from the one before, or where the level of RX falls. One that is equal to the word before shows
        neither way where it is read in the clock of a push.
        """
        levels, words = self.rx_level(machine), self.values[f"{WORD}{machine}"]
        falls = {after[0] for old, after in zip(levels.changes, levels.changes[1:]) if after[1] < old[1]}
        changes = {clock for clock, value in words.changes if clock or value}
        return [words.at(clock) for clock in sorted(falls | changes)]


@dataclass(frozen=True)
class Verdict:
    """The verdict on a span: whether it is proved, and if so whether a from-edge can come; else the cause, and where."""

    name: str
    proved: bool
    opens: bool
    cause: Optional[str]
    address: Optional[int]
    machine: Optional[int]
    line: str

    def __bool__(self) -> bool:
        """Whether it is proved of a span that opens, and that closes where its line says so, as a build wants it."""
        return self.proved and self.opens and " closes no" not in self.line


class Files:
    """The files of a call by the words of the call; lines that are in no file are written into a folder."""

    def __init__(self, stack: ExitStack, **files: Optional[File]) -> None:
        self.paths: dict[str, str] = {}
        self.shown: dict[str, str] = {}  # as a fault has them
        for word, file in files.items():
            if isinstance(file, (str, PathLike)):
                self.paths[word] = self.shown[word] = str(file)
            elif file is not None:
                folder = stack.enter_context(tempfile.TemporaryDirectory())
                path = Path(folder) / NAMES[word]
                path.write_text("".join(f"{line}\n" for line in file))
                self.paths[word], self.shown[word] = str(path), f"<{word}>"

    def called(self, command: str, *words: str, ends: tuple[int, ...] = (0,)) -> str:
        """What a command writes."""
        files = [it for word, path in self.paths.items() for it in (f"--{word}", path)]
        status, text, told = piotool(command, *files, *words)
        if status not in ends:
            raise Refused(told, status, self.shown)
        return text


def run(source: File, config: Optional[File] = None, stimulus: Optional[File] = None, clocks: int = 1000) -> Trace:
    """The trace of a run. A file is a path, or a list of lines. What piotool refuses is raised as `Refused`."""
    with ExitStack() as stack:
        files = Files(stack, source=source, config=config, stimulus=stimulus)
        text = files.called("run", "--clocks", str(clocks))
        before = levels_of(files.paths.get("config"))
    values = {name: Values(tuple(changes)) for name, changes in read_values(text).items()}
    return Trace(text, clocks, values, before)


def levels_of(config: Optional[str]) -> frozenset[int]:
    """The pins whose output level is 1 before clock 0."""
    from piotool.setups import read_tables

    return frozenset(read_tables(config)["pins"].get("level", [])) if config else frozenset()


def check(source: File, config: Optional[File] = None) -> list[Verdict]:
    """The verdict on each declared span, in order. What piotool refuses but a span is raised as `Refused`."""
    with ExitStack() as stack:
        text = Files(stack, source=source, config=config).called("check", ends=(0, 3))
    return [verdict_of(line) for line in text.splitlines()]


def verdict_of(line: str) -> Verdict:
    """The verdict that a line has."""
    found = LINE.fullmatch(line)
    if not found:
        raise Fault(f"piotool: no verdict: {line}")
    name, opens, address, machine, cause = found.groups()
    numbers = [None if it is None else int(it) for it in (address, machine)]
    return Verdict(name, opens is not None, opens == "yes", cause, *numbers, line)
