"""Reads the tables of captures: sigrok's CSV, a row a sample, and Saleae's CSV, a row a change."""

import re
from fractions import Fraction

from piotool.calls import Fault
from piotool.captures import Capture
from piotool.traces import Bit

RATE = re.compile(r";\s*Samplerate:\s*(\d{1,20}(?:\.\d{1,20})?)\s*(Hz|kHz|MHz|GHz)\s*")
CHANNELS = re.compile(r";\s*Channels \(\d+/\d+\):\s*(.*)")
HERTZ = {"Hz": 1, "kHz": 10**3, "MHz": 10**6, "GHz": 10**9}
SECONDS = re.compile(r"-?\d{1,20}(?:\.\d{1,30})?(?:[eE][+-]?\d{1,2})?")
PICOSECONDS = 10**12
MOST_DIGITS = 40  # of a time


class Columns:
    """The signals of a table, to which rows of values are added. What a row changes is looked up, since there may be millions."""

    def __init__(self, path: str, names: list[str]) -> None:
        self.path, self.names = path, names
        self.bits = [Bit() for _ in names]
        self.before = ""
        self.moves: dict[tuple[str, str], list[tuple[Bit, int]]] = {}

    def add(self, number: int, time: int, row: str) -> None:
        """Adds the values of a row."""
        key = self.before, row
        if key not in self.moves:
            self.moves[key] = self.changed(number, row)
        for bit, value in self.moves[key]:
            bit.clocks.append(time)
            bit.values.append(value)
        self.before = row

    def changed(self, number: int, row: str) -> list[tuple[Bit, int]]:
        """What a row changes."""
        cells = [cell.strip() for cell in row.split(",")]
        if len(cells) != len(self.names):
            raise Fault(f"{self.path}: line {number}: {len(cells)} values, and {len(self.names)} signals")
        for cell in cells:
            if cell not in ("0", "1"):
                raise Fault(f"{self.path}: line {number}: {cell!r} is neither 0 nor 1")
        before = [cell.strip() for cell in self.before.split(",")] if self.before else [""] * len(cells)
        return [(bit, int(cell)) for bit, cell, old in zip(self.bits, cells, before) if cell != old]

    def capture(self, unit: Fraction, first: int, last: int) -> Capture:
        """The capture of the rows."""
        return Capture(self.path, unit, dict(zip(self.names, self.bits)), first, last)


def ticks_of(rate: Fraction, label: str) -> int:
    """The units of a second in sigrok's column of time: by its label, or by the rate where the label is `Time`."""
    units = {"seconds": 1, "milliseconds": 10**3, "microseconds": 10**6, "nanoseconds": 10**9, "picoseconds": 10**12}
    return units.get(label.lower(), next((unit for unit in (1, 10**3, 10**6, 10**9) if rate <= unit), 10**12))


def read_rows(path: str, text: str) -> Capture:
    """The capture of sigrok's CSV: each row is a sample, or has its time first."""
    lines = text.splitlines()
    rate, names, ticks, last, before = Fraction(0), [], 0, -1, None
    rows: list[tuple[int, int, str]] = []
    for number, line in enumerate(lines, 1):
        if line == before:
            last += 1
        elif line.startswith(";"):
            if found := RATE.fullmatch(line):
                rate = Fraction(found[1]) * HERTZ[found[2]]
            elif found := CHANNELS.fullmatch(line):
                names = [it.strip() for it in found[1].split(",")]
        elif line.strip():
            if not rate or not names:
                raise Fault(f"{path}: line {number}: no line before it says {'the samplerate' if not rate else 'the channels'}")
            if not rows and not line.rpartition(",")[2].strip().isdecimal():
                ticks = ticks_of(rate, line.partition(",")[0].strip()) if line.count(",") == len(names) else 0
            elif ticks:
                rows.append((number, *timed(path, number, line, rows)))
            else:
                last, before = last + 1, line
                rows.append((number, last, line))
    if not rows:
        raise Fault(f"{path}: line {len(lines)}: no sample")
    columns = Columns(path, names)
    for number, time, row in in_samples(rows, ticks, rate):
        columns.add(number, time, row)
        last = max(last, time)
    return columns.capture(10**9 / rate, 0, last)


def timed(path: str, number: int, line: str, rows: list[tuple[int, int, str]]) -> tuple[int, str]:
    """The time of a row, and its values."""
    cell, _, row = line.partition(",")
    if not cell.strip().isdecimal() or len(cell) > MOST_DIGITS:
        raise Fault(f"{path}: line {number}: {cell!r} is no time")
    if rows and int(cell) < rows[-1][1]:
        raise Fault(f"{path}: line {number}: time {cell} comes after a later one")
    return int(cell), row


def in_samples(rows: list[tuple[int, int, str]], ticks: int, rate: Fraction) -> list[tuple[int, int, str]]:
    """The rows with their samples for their times. The first sample has the time of one period.

    sigrok 0.7.2 adds up periods that it rounded down: 41 ns at 24 MHz, so that sample 17 has the time 697. A file whose times are
    no multiples of such a period has times that were rounded down one by one.
    """
    if not ticks:
        return rows
    step = max(1, int(ticks / rate))
    if all(time % step == 0 for _, time, _ in rows):
        return [(number, max(0, time // step - 1), row) for number, time, row in rows]
    scale = rate / ticks
    return [(number, max(0, -(-time * scale.numerator // scale.denominator) - 1), row) for number, time, row in rows]


def read_changes(path: str, text: str) -> Capture:
    """The capture of Saleae's CSV: each row has a time in seconds and the levels from then on."""
    lines = text.splitlines()
    heading, *names = (cell.strip().strip('"') for cell in lines[0].split(","))
    if not re.fullmatch(r"[Tt]ime ?\[s\]", heading) or not names:
        raise Fault(f"{path}: line 1: no heading of Saleae's changes, as Time [s],Channel 0")
    if len(set(names)) < len(names):
        raise Fault(f"{path}: line 1: two channels have one name")
    columns, first, last = Columns(path, names), None, None
    for number, line in enumerate(lines[1:], 2):
        if not line.strip():
            continue
        cell, _, row = line.partition(",")
        time = picoseconds(path, number, cell)
        if last is not None and time < last:
            raise Fault(f"{path}: line {number}: time {cell} comes after a later one")
        columns.add(number, time, row)
        first, last = time if first is None else first, time
    if first is None or last is None:
        raise Fault(f"{path}: line {len(lines)}: no change")
    return columns.capture(Fraction(1, 1000), first, last)


def picoseconds(path: str, number: int, cell: str) -> int:
    """A time in seconds, in picoseconds."""
    whole, _, part = cell.strip().partition(".")
    if part.isdecimal() and len(part) <= 12 and len(whole) <= 20 and whole.removeprefix("-").isdecimal():
        return int(whole + part.ljust(12, "0"))
    if not SECONDS.fullmatch(cell.strip()):
        raise Fault(f"{path}: line {number}: {cell!r} is no time in seconds")
    return round(Fraction(cell.strip()) * PICOSECONDS)
