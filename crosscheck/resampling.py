"""Resamples pins as a logic analyser does: at a rate of its own, with jitter and a clock that is off; nothing here is of a real chip."""

from dataclasses import dataclass
from fractions import Fraction
from random import Random

Edges = list[tuple[int, int]]  # clocks, and the level from then on


@dataclass(frozen=True)
class Analyser:
    """Samples of a second in MHz, the jitter of a sample in nanoseconds, how much longer its time is in millionths, its first sample."""

    mhz: Fraction
    jitter: Fraction
    ppm: Fraction
    phase: Fraction
    seed: int

    @property
    def period(self) -> Fraction:
        """The time from a sample to the next as it is."""
        return 1000 / self.mhz / (1 + self.ppm / 10**6)

    def time(self, sample: int) -> Fraction:
        """When a sample is taken, in nanoseconds."""
        late = Random(self.seed * 10**9 + sample).randint(-1000, 1000)
        return self.phase + sample * self.period + self.jitter * late / 1000

    def sample(self, time: Fraction) -> int:
        """The first sample at this time or later."""
        sample = max(0, int((time - self.phase) / self.period) - 1)
        while self.time(sample) < time:
            sample += 1
        return sample


def resampled(pins: dict[str, tuple[int, Edges]], clocks: int, mhz: Fraction, analyser: Analyser) -> str:
    """The dump of these signals, each with its level before its edges, in the form in which sigrok writes it."""
    clock, levels = 1000 / mhz, {name: level for name, (level, _) in pins.items()}
    changes: dict[int, dict[str, int]] = {0: dict(levels)}
    for name, (_, edges) in pins.items():
        for time, level in edges:
            changes.setdefault(analyser.sample(time * clock), {})[name] = level
    lines = ["$comment made of a trace of piotool by crosscheck/bench; no capture of a chip $end", "$timescale 100 ps $end"]
    lines += ["$scope module libsigrok $end", *(f"$var wire 1 {chr(33 + place)} {name} $end" for place, name in enumerate(pins))]
    lines += ["$upscope $end", "$enddefinitions $end"]
    names, before = {name: chr(33 + place) for place, name in enumerate(pins)}, {}
    for sample in sorted(changes):
        moved = [f"{level}{names[name]}" for name, level in changes[sample].items() if before.get(name) != level]
        before |= changes[sample]
        if moved:
            lines.append(" ".join([f"#{written(sample, analyser)}", *moved]))
    return "\n".join([*lines, f"#{written(analyser.sample(clocks * clock), analyser)}"]) + "\n"


def written(sample: int, analyser: Analyser) -> int:
    """The time that the analyser writes for a sample, in tenths of nanoseconds: it doesn't know that its clock is off."""
    return round(sample * 10_000 / analyser.mhz)
