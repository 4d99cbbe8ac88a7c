"""Reads the values of the traces that `piotool run`, `piotool pair` and `piotool inspect` write."""

import re
from bisect import bisect_right
from dataclasses import dataclass, field
from pathlib import Path

from piotool.calls import Fault, read_text

VAR = re.compile(r"\$var wire ([0-9]+) (\S+) ([pdftrws])([0-9]+) \$end")
INSIDE = re.compile(r"\$var wire ([0-9]+) (\S+) ([a-z_]+[0-9]*) \$end")
WIDE = re.compile(r"b[01]+ \S+")
SCOPE = re.compile(r"\$scope module (pio[01]?|pads|sm[0-3]) \$end")
TIME = re.compile(r"#([0-9]{1,18})")
# The second block's values have the same names as the first one's in a trace of `pair`; here they have these.
SECOND = {"p": "q", "d": "e", "f": "g"}


@dataclass
class Bit:
    """A value: the clocks in which the trace tells it, in order, and what it is from each of them on."""

    clocks: list[int] = field(default_factory=list)
    values: list[int] = field(default_factory=list)

    def at(self, clock: int) -> int:
        """The value in the sample of a clock."""
        place = bisect_right(self.clocks, clock)
        return self.values[place - 1] if place else 0

    def changes(self, first: int, last: int) -> list[tuple[int, int]]:
        """The clocks after first and before last in which the value changes, each with the new value."""
        return [(when, value) for when, value in self.edges(0) if first < when < last]

    def edges(self, before: int) -> list[tuple[int, int]]:
        """The clocks in which the value differs from the one before, each with the new value; before clock 0 it is given."""
        found = []
        for when, value in zip(self.clocks, self.values):
            if value != before:
                found.append((when, value))
            before = value
        return found


@dataclass
class Trace:
    """The one-bit values of a trace by name, in its order, its number of clocks, and its values of more bits.

    What is inside a machine has names as sm0.pc and sm0.waits, and what is at the pads i0 to i31. Of two blocks the wide values are
    the first one's.
    """

    bits: dict[str, Bit]
    clocks: int
    words: dict[str, Bit] = field(default_factory=dict)

    @property
    def machines(self) -> list[str]:
        """The machines of which it tells what is inside: sm0 to sm3."""
        return [name.removesuffix(".waits") for name in self.bits if name.endswith(".waits")]


def read_trace(path: str | Path) -> Trace:
    """The trace in a file."""
    lines = read_text(path).splitlines()
    bits, words, by_id, head = read_names(path, lines)
    # What a line does to its value is looked up, since there may be millions.
    narrow = {name: bit for name, bit in by_id.items() if not name.startswith(" ")}
    moves = {f"{value}{name}": (bit.clocks.append, bit.values.append, value) for name, bit in narrow.items() for value in (0, 1)}
    clock = 0
    for number, line in enumerate(lines[head:], head + 1):
        if line in moves:
            tell_clock, tell_value, value = moves[line]
            tell_clock(clock)
            tell_value(value)
        elif TIME.fullmatch(line):
            before, clock = clock, int(line[1:])
            if clock < before:
                raise Fault(f"{path}: line {number}: clock {clock} comes after {before}")
        elif WIDE.fullmatch(line):
            digits, _, name = line.partition(" ")
            if word := by_id.get(" " + name):
                word.clocks.append(clock)
                word.values.append(int(digits[1:], 2))
        elif line not in ("$dumpvars", "$end"):
            raise Fault(f"{path}: line {number}: no line of a trace")
    if not TIME.fullmatch(lines[-1]):
        raise Fault(f"{path}: the trace is cut short: its last line has no clock")
    return Trace(bits, clock, words)


def read_values(text: str) -> dict[str, list[tuple[int, int]]]:
    """All values of a trace of one block by name, also wide ones: the clocks in which they change, each with the new value."""
    names = {name: kind + place for _, name, kind, place in VAR.findall(text)}
    found: dict[str, list[tuple[int, int]]] = {name: [] for name in names.values()}
    clock = 0
    for line in text.partition("$enddefinitions $end\n")[2].splitlines():
        if line[0] == "#":
            clock = int(line[1:])
        elif line[0] == "b":
            digits, _, name = line[1:].partition(" ")
            found[names[name]].append((clock, int(digits, 2)))
        elif line[0] in "01":
            found[names[line[1:]]].append((clock, int(line[0])))
    return found


def read_names(path: str | Path, lines: list[str]) -> tuple[dict[str, Bit], dict[str, Bit], dict[str, Bit], int]:
    """The one-bit values and the others by name; all by identifier, with a space before that of a wide one; the lines of the head."""
    bits: dict[str, Bit] = {}
    words: dict[str, Bit] = {}
    by_id: dict[str, Bit] = {}
    scope = ""
    for number, line in enumerate(lines, 1):
        if var := (INSIDE if scope == "pads" or scope.startswith("sm") else VAR).fullmatch(line):
            name = name_in(scope, "".join(var.groups()[2:]))
            if var[1] == "1":
                bits[name] = by_id[var[2]] = Bit()
            elif scope != "pio1":
                words[name] = by_id[" " + var[2]] = Bit()
        elif opened := SCOPE.fullmatch(line):
            scope = opened[1]
        elif line == "$enddefinitions $end" and number < len(lines):
            return bits, words, by_id, number
        elif line not in ("$timescale 1 ns $end", "$upscope $end"):
            break
    raise Fault(f"{path}: no trace that piotool writes")


def name_in(scope: str, name: str) -> str:
    """What a variable of a scope is called here."""
    if scope == "pio1":
        return SECOND.get(name[0], name[0]) + name[1:]
    return f"{scope}.{name}" if scope.startswith("sm") else name


def bits_named(path: str | Path, trace: Trace, names: str) -> dict[str, Bit]:
    """The one-bit values of these names; the names are a text with commas between them."""
    for name in names.split(","):
        if name not in trace.bits:
            raise Fault(f"{path}: no value of one bit is called {name!r}")
    return {name: trace.bits[name] for name in names.split(",")}


def values_named(path: str | Path, trace: Trace, names: str) -> dict[str, Bit]:
    """The values of these names, of one bit or of more."""
    values = trace.words | trace.bits
    for name in names.split(","):
        if name not in values:
            raise Fault(f"{path}: no value is called {name!r}")
    return {name: values[name] for name in names.split(",")}
