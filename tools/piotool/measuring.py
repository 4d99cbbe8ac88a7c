"""Measures declared spans on a capture of real pins, or on a trace of piotool."""

from dataclasses import dataclass
from fractions import Fraction
from typing import Optional

from piotool.calls import Fault
from piotool.captures import Capture
from piotool.edges_seen import edges_of, pairs_of
from piotool.real_time import shown
from piotool.setups import LONG, Span, Tables, clocks_allowed, period_of
from piotool.span_model import EDGES

COLUMNS = ("span", "declared", "seen", "least", "mean", "most", "clocks allowed", "outside", "least at", "most at")


@dataclass
class Measured:
    """A span's measures, in clocks: each with the clock of its from-edge; the clocks that are allowed, and how many are outside.

    Of a span that speaks of some pairs alone (`prompt`, `without`, `assume`, `from_at`, `to_at`) all are measured, and none is outside: a capture
    doesn't say of which.
    """

    span: Span
    measures: list[tuple[Fraction, Fraction]]
    least: int
    most: Optional[int]  # none where the span names stalls, whose waits aren't known
    outside: int

    def cells(self, clock: Fraction) -> list[str]:
        """The cells of its row."""
        allowed = f"{self.least}.. and waits" if self.most is None else f"{self.least}..{self.most}"
        allowed = f"{self.least}.." if self.most == LONG else allowed
        allowed = allowed if self.span.speaks_of_all else "of some pairs"
        if not self.measures:
            return [self.span.name, self.span.bounds(), "0", "-", "-", "-", allowed, "0", "-", "-"]
        least, most = min(self.measures), max(self.measures, key=lambda it: (it[0], -it[1]))
        mean = sum(length for length, _ in self.measures) / len(self.measures)
        times = [f"{shown(it)} ({shown(it * clock)} ns)" for it in (least[0], mean, most[0])]
        places = [shown(it, 0) for it in (least[1], most[1])]
        return [self.span.name, self.span.bounds(), str(len(self.measures)), *times, allowed, str(self.outside), *places]


def measured(path: str, tables: Tables, span: Span, capture: Capture, pins: dict[int, str], mhz: Fraction, slack: Fraction) -> Measured:
    """What a capture has of a span: each from-edge with the first to-edge after it."""
    factor = capture.clocks_a_unit(mhz)
    ends = []
    if not span.is_of_pins:
        raise Fault(f"{path}: span {span.name} is of ends of instructions, which no capture has")
    for pin, edge in ((span.from_pin, span.from_edge), (span.to_pin, span.to_edge)):
        letter, key = EDGES[edge][0], {"p": "level", "d": "out"}[EDGES[edge][0]]
        if letter == "d" and capture.unit is not None:
            raise Fault(f"{path}: span {span.name} is of directions, which no capture of pins has")
        bit = capture.named(pins[pin] if letter == "p" else f"d{pin}")
        # Of a trace the level before clock 0 is the configuration's; of a capture it is the first one.
        before = int(pin in tables["pins"].get(key, [])) if capture.unit is None else bit.at(capture.first)
        ends.append(edges_of(bit, before, edge))
    least = span.min * (period_of(path, tables, span.machine) if span.unit == "ticks" else 256) // 256
    most = (clocks_allowed(path, tables, span) or (0, None))[1]
    found = [((end - start) * factor, (start - capture.first) * factor) for start, end in pairs_of(*ends)]
    outside = sum(length < least - slack or most is not None and length > most + slack for length, _ in found)
    return Measured(span, found, least, most, outside if span.speaks_of_all else 0)


def table_of(rows: list[Measured], mhz: Fraction) -> str:
    """The table, in clocks and nanoseconds; columns are as wide as they have to be."""
    cells = [list(COLUMNS), *(row.cells(1000 / mhz) for row in rows)]
    widths = [max(len(row[place]) for row in cells) for place in range(len(COLUMNS))]
    return "".join("  ".join(cell.ljust(width) for cell, width in zip(row, widths)).rstrip() + "\n" for row in cells)
