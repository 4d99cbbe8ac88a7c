"""Levels of pins over time, as devices drive them, and the lines of a stimulus that they come to."""

from dataclasses import dataclass, field
from fractions import Fraction
from random import Random
from typing import Iterable, Optional

from piotool.calls import Fault
from piotool.real_time import nearest
from piotool.stimulus_model import LAST_CLOCK, MOST_LINES

Edges = list[tuple[int, int]]


@dataclass
class Waves:
    """The edges of pins in clocks, which needn't be whole, and the level of each pin before."""

    start: dict[int, int] = field(default_factory=dict)
    edges: dict[int, list[tuple[Fraction, int]]] = field(default_factory=dict)

    def rest(self, pin: int, level: int) -> None:
        """Says a pin's level at the start."""
        if pin in self.start:
            raise Fault(f"pin {pin} has two signals")
        self.start[pin], self.edges[pin] = level, []

    def level(self, pin: int) -> int:
        """The level after the last edge."""
        return self.edges[pin][-1][1] if self.edges[pin] else self.start[pin]

    def drive(self, pin: int, level: int, time: Fraction) -> None:
        """Drives a pin from a time on, which isn't before its last edge."""
        if level != self.level(pin):
            self.edges[pin].append((time, level))

    def jitter(self, most: Fraction, random: Random) -> None:
        """Moves each edge by up to so many clocks; the edges of a pin keep their order."""
        for pin in sorted(self.edges):
            moved, last = [], Fraction(0)
            for time, level in self.edges[pin]:
                last = max(last, time + most * random.randint(-1000, 1000) / 1000)
                moved.append((last, level))
            self.edges[pin] = moved

    def glitch(self, pin: int, time: Fraction, width: Fraction) -> None:
        """Turns a pin's level round for a while."""
        if pin not in self.start:
            raise Fault(f"--glitch: pin {pin} has no signal here")
        times = {when: value for when, value in self.edges[pin]}
        places = sorted({*times, time, time + width})
        level, shown, made = self.start[pin], self.start[pin], []
        for when in places:
            level = times.get(when, level)
            now = level ^ (time <= when < time + width)
            if now != shown:
                made.append((when, now))
            shown = now
        self.edges[pin] = made

    def lines(self) -> tuple[list[tuple[int, int, int]], int]:
        """The lines, in order: clock, pin, level; and how many pulses have none, since they begin and end in one clock."""
        found, dropped = [], 0
        for pin, edges in self.edges.items():
            kept, count = in_clocks((nearest(time), level) for time, level in edges)
            found += [(clock, pin, level) for clock, level in kept]
            dropped += count
        return sorted(found), dropped


def in_clocks(edges: Iterable[tuple[int, int]]) -> tuple[Edges, int]:
    """The edges of a pin without those of one clock, and how many pulses these were."""
    kept: Edges = []
    dropped = 0
    for edge in edges:
        if kept and kept[-1][0] == edge[0]:
            kept.pop()
            dropped += 1
        else:
            kept.append(edge)
    return kept, dropped


def high_text(start: dict[int, int]) -> str:
    """The comment with the pins that are high at the start, as a configuration has them; none where there are none."""
    high = sorted(pin for pin, level in start.items() if level)
    return f"# at the start, in [pins] of the configuration: high = {high}\n" if high else ""


def text_of_pins(lines: list[tuple[int, int, int]], start: dict[int, int], what: Optional[str] = None) -> str:
    """The text of a stimulus with these lines of pins."""
    if len(lines) > MOST_LINES:
        raise Fault(f"{len(lines)} edges, and a stimulus has at most {MOST_LINES} lines")
    if lines and (lines[0][0] < 0 or lines[-1][0] > LAST_CLOCK):
        raise Fault(f"clocks {lines[0][0]} to {lines[-1][0]}: a clock of a stimulus is 0 to {LAST_CLOCK}")
    front = (f"# {what}\n" if what else "") + high_text(start)
    return front + "".join([f"{clock} pin {pin} {level}\n" for clock, pin, level in lines])
