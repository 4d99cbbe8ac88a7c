"""Lays a capture beside a trace: aligned at an edge, pin by pin and edge by edge."""

import re
from dataclasses import dataclass, field
from fractions import Fraction
from typing import Optional

from piotool.calls import Fault
from piotool.captures import Capture
from piotool.real_time import shown
from piotool.traces import Bit, Trace

EDGE = re.compile(r"p(\d{1,2}):(rise|fall)(?::(\d{1,12}))?")
Edge = tuple[Fraction, int]  # nanoseconds, and the level from then on
Pair = tuple[Fraction, Fraction, int]  # the trace's edge, the capture's, the level


@dataclass
class Compared:
    """A pin's edges in both: pairs, and the edges that only one has."""

    pin: int
    name: str
    pairs: list[Pair] = field(default_factory=list)
    trace_only: list[Edge] = field(default_factory=list)
    capture_only: list[Edge] = field(default_factory=list)

    def differences(self) -> list[Fraction]:
        """How much later the capture's edges are, in nanoseconds."""
        return [late - early for early, late, _ in self.pairs]


def nanoseconds(edges: list[tuple[int, int]], unit: Fraction) -> list[Edge]:
    """Edges with their times in nanoseconds."""
    return [(time * unit, level) for time, level in edges]


class Comparison:
    """A trace and a capture of the same pins."""

    def __init__(self, trace: Trace, path: str, capture: Capture, mhz: Fraction, pins: dict[int, str], tolerance: Fraction) -> None:
        self.path, self.trace, self.capture, self.pins, self.tolerance = path, trace, capture, pins, tolerance
        self.clock = 1000 / mhz
        unit = capture.clocks_a_unit(mhz) * self.clock
        self.ours, self.theirs = {}, {}
        for pin, name in pins.items():
            bit, other = trace.bits[f"p{pin}"], capture.named(name)
            self.ours[pin] = nanoseconds(bit.edges(bit.at(0)), self.clock)
            self.theirs[pin] = nanoseconds(other.edges(other.at(capture.first)), unit)
        self.unit, self.shift = unit, Fraction(0)

    def align(self, edge: Optional[str]) -> None:
        """Moves the capture so that an edge comes in both at one time: the edge named `p0:rise:2`, else the first one of the first pin."""
        pin, level, count = self.edge_of(edge)
        both = []
        for what, edges in ((self.path, self.ours), (self.capture.path, self.theirs)):
            found = [time for time, value in edges[pin] if level is None or value == level]
            if len(found) <= count:
                raise Fault(f"{what}: pin {pin} has no {'edge' if level is None else 'such edge'} to align at: {edge or 'the first one'}")
            both.append((found[count], next(value for time, value in edges[pin] if time == found[count])))
        if both[0][1] != both[1][1]:
            raise Fault(f"{self.capture.path}: the first edge of pin {pin} isn't the trace's: --align says which are one, as p{pin}:rise")
        self.shift = both[0][0] - both[1][0]

    def edge_of(self, text: Optional[str]) -> tuple[int, Optional[int], int]:
        """The pin, the level after it and the place of the edge to align at."""
        if text is None:
            with_edges = [pin for pin in self.pins if self.ours[pin] and self.theirs[pin]]
            if not with_edges:
                raise Fault(f"{self.capture.path}: no pin has an edge in both")
            return min(with_edges, key=lambda pin: self.ours[pin][0]), None, 0
        found = EDGE.fullmatch(text)
        if not found or int(found[1]) not in self.pins:
            raise Fault(f"--align: {text!r} is no edge of a pin that is compared, as p{min(self.pins)}:rise:0")
        return int(found[1]), int(found[2] == "rise"), int(found[3] or 0)

    def compared(self, pin: int) -> Compared:
        """A pin's edges, each with the nearest one of its direction in the other; the window follows the drift."""
        result = Compared(pin, self.pins[pin])
        start, end = Fraction(0), self.trace.clocks * self.clock
        first = self.capture.first * self.unit + self.shift
        last = self.capture.last * self.unit + self.shift
        low, high = max(start, first), min(end, last)
        theirs = [(time + self.shift, level) for time, level in self.theirs[pin]]
        ours = list(self.ours[pin])
        window = max(self.tolerance, self.shortest(pin) / 2)
        offset, i, j = Fraction(0), 0, 0
        while i < len(ours) or j < len(theirs):
            late = theirs[j][0] - ours[i][0] - offset if i < len(ours) and j < len(theirs) else None
            if late is not None and abs(late) <= window and ours[i][1] == theirs[j][1]:
                result.pairs.append((ours[i][0], theirs[j][0], ours[i][1]))
                offset = theirs[j][0] - ours[i][0]
                i, j = i + 1, j + 1
            elif j == len(theirs) or late is not None and late > 0:
                if low <= ours[i][0] + offset <= high - window:
                    result.trace_only.append(ours[i])
                i += 1
            else:
                if low <= theirs[j][0] - offset <= high - window:
                    result.capture_only.append(theirs[j])
                j += 1
        return result

    def shortest(self, pin: int) -> Fraction:
        """The shortest time between two edges of a pin in the trace."""
        times = [time for time, _ in self.ours[pin]]
        return min((after - time for time, after in zip(times, times[1:])), default=Fraction(10**12))


def drift_of(pairs: list[Pair]) -> Optional[tuple[float, float]]:
    """How much longer the capture's times are, in millionths, and how sure that is; none of fewer than three pairs.

    It is the slope of the differences over time, by least squares. Samples may err all one way at one end, and all the other way at
    the other: so it is unsure by what errors within the range of the rest can make at most.
    """
    if len(pairs) < 3:
        return None
    times = [float(early) for early, _, _ in pairs]
    late = [float(other - early) for early, other, _ in pairs]
    middle, mean = sum(times) / len(times), sum(late) / len(late)
    width = sum((time - middle) ** 2 for time in times)
    if width == 0:
        return None
    slope = sum((time - middle) * (it - mean) for time, it in zip(times, late)) / width
    rest = [it - slope * time for time, it in zip(times, late)]
    unsure = sum(abs(time - middle) for time in times) * (max(rest) - min(rest)) / 2 / width
    return slope * 1e6, unsure * 1e6


def edge_text(level: int) -> str:
    """What an edge to this level does."""
    return "rises" if level else "falls"


def lines_of(comparison: Comparison, results: list[Compared]) -> list[str]:
    """The lines of a comparison."""
    lines = []
    for it in results:
        text = f"pin {it.pin} and {it.name}: {len(it.pairs)} edges in both"
        if late := it.differences():
            greatest = max(late, key=abs)
            place = next(early for early, other, _ in it.pairs if other - early == greatest)
            text += f", the capture's later by {shown(sum(late) / len(late))} ns in the mean, from {shown(min(late))} to {shown(max(late))}"
            text += f"; the greatest at clock {shown(place / comparison.clock, 0)}"
        lines.append(text)
        for where, edges, other in (("trace", it.trace_only, "capture"), ("capture", it.capture_only, "trace")):
            if edges:
                time, level = edges[0]
                text = f"pin {it.pin}: {len(edges)} edges only in the {where}; the first {edge_text(level)}"
                lines.append(f"{text} at clock {shown(time / comparison.clock, 1)} ({shown(time)} ns), where the {other} has none")
    drift = drift_of(sorted(pair for it in results for pair in it.pairs))
    told = f"{shown(drift[0])} ppm, give or take {shown(drift[1])}" if drift else "unknown, of fewer than three edges"
    return [*lines, f"drift: {told}"]


def is_within(results: list[Compared], tolerance: Fraction) -> bool:
    """Whether all edges are in both, and none differs by more than the tolerance."""
    return all(not it.trace_only and not it.capture_only and all(abs(late) <= tolerance for late in it.differences()) for it in results)


def in_clocks(bit: Bit, unit: Fraction, shift: Fraction, clock: Fraction) -> Bit:
    """A signal of a capture with its times in clocks of the trace."""
    return Bit([(time * unit + shift) / clock for time in bit.clocks], bit.values)  # type: ignore[misc]
