"""Reads the bytes of waves as the receivers of these buses do: SPI, I2C, 1-Wire and NEC, each from the bus's own rules.

They share nothing with piotool/devices.py. Times are clocks of 8 ns (125 MHz); a wave is the level at the start and the edges.
"""

from dataclasses import dataclass
from random import Random
from typing import Callable, Iterator

from resampling import Edges

US = 125
JITTER = US // 10  # the edges of `wrong_device` are off by less


@dataclass(frozen=True)
class Wave:
    """A pin's level before its first edge, and its edges."""

    before: int
    edges: Edges

    def at(self, clock: int) -> int:
        """The level just before a clock's edge."""
        level = self.before
        for when, value in self.edges:
            if when >= clock:
                break
            level = value
        return level


Waves = dict[int, Wave]


def waves_of(text: str) -> Waves:
    """The waves of a stimulus, with the levels at the start that its comment says."""
    high, edges = set(), {}
    for line in text.splitlines():
        if line.startswith("# at the start"):
            high = {int(it) for it in line.partition("high = [")[2].rstrip("]").split(",") if it}
        fields = line.partition("#")[0].split()
        if len(fields) == 4 and fields[1] == "pin":
            edges.setdefault(int(fields[2]), []).append((int(fields[0]), int(fields[3])))
    return {pin: Wave(int(pin in high), edges.get(pin, [])) for pin in high | set(edges)}


def byte_of(bits: list[int], low_first: bool) -> int:
    """The byte of eight bits."""
    ordered = bits[::-1] if low_first else bits
    return sum(bit << place for place, bit in enumerate(reversed(ordered)))


def bytes_of(bits: list[int], low_first: bool) -> bytes:
    """The bytes of bits; a part of a byte at the end is left out."""
    return bytes(byte_of(bits[at : at + 8], low_first) for at in range(0, len(bits) - 7, 8))


def spi_bytes(waves: Waves, mode: int) -> bytes:
    """Data on pin 2 at the clock edge (pin 3) on which the mode samples, while select (pin 4) is low."""
    samples_at = 1 if mode in (0, 3) else 0
    data = waves.get(2, Wave(0, []))
    return bytes_of([data.at(when) for when, level in waves[3].edges if level == samples_at and not waves[4].at(when)], False)


def i2c_bytes(waves: Waves) -> tuple[bytes, list[int]]:
    """The bytes between start and stop on SDA (pin 2) and SCL (pin 3), and their acknowledges: SDA is sampled while SCL rises."""
    sda, scl = waves[2], waves[3]
    starts = [when for when, level in sda.edges if level == 0 and scl.at(when)]
    stops = [when for when, level in sda.edges if level == 1 and scl.at(when)]
    if len(starts) != 1 or len(stops) != 1:
        return b"", []
    bits = [sda.at(when) for when, level in scl.edges if level and starts[0] < when < stops[0]]
    groups = [bits[at : at + 9] for at in range(0, len(bits) - 8, 9)]
    return bytes(byte_of(group[:8], False) for group in groups), [group[8] for group in groups]


def onewire_bytes(waves: Waves) -> bytes:
    """Of the pulses on pin 2: a reset of 480 us or more, a presence that begins 15 to 60 us after it; then slots, of which a low of up to
    15 us is a 1 and one of 60 to 120 us a 0. The first slot comes more than 480 us after the reset."""
    (reset, end), (presence, over), *slots = pulses(waves[2], 0)
    if not is_within(end - reset, 480, 960) or not is_within(presence - end, 15, 60) or not is_within(over - presence, 60, 240):
        return b""
    lengths = [stop - start for start, stop in slots]
    if slots[0][0] - end <= 480 * US or not all(length <= 15 * US or is_within(length, 60, 120) for length in lengths):
        return b""
    return bytes_of([int(length <= 15 * US) for length in lengths], True)


def nec_bytes(waves: Waves) -> bytes:
    """Of the bursts (low) on pin 2: 9 ms and a pause of 4.5 ms, then bits by the distance of bursts: 1.125 ms is a 0, 2.25 ms a 1."""
    (start, end), *bursts = pulses(waves[2], 0)
    if not near(end - start, 9000) or not near(bursts[0][0] - end, 4500) or len(bursts) != 33:
        return b""
    distances = [after[0] - before[0] for before, after in zip(bursts, bursts[1:])]
    if not all(near(it, 1125) or near(it, 2250) for it in distances):
        return b""
    return bytes_of([int(near(it, 2250)) for it in distances], True)


def is_within(clocks: int, least: int, most: int) -> bool:
    """Whether a time is within so many microseconds, but for the jitter."""
    return least * US - JITTER <= clocks <= most * US + JITTER


def near(clocks: int, us: float) -> bool:
    """Whether a time is within a tenth of so many microseconds."""
    return abs(clocks / US - us) <= us / 10


def pulses(wave: Wave, level: int) -> Iterator[tuple[int, int]]:
    """The times from an edge to a level to the next edge."""
    for (start, value), (end, _) in zip(wave.edges, wave.edges[1:]):
        if value == level:
            yield start, end


def wrong_device(seed: int, called: Callable[..., str]) -> str:
    """What a receiver doesn't get of random bytes that piotool-stimulus sends; nothing where each gets all."""
    random = Random(seed)
    data = random.randbytes(random.randint(1, 4))
    mode, address, frame = random.randrange(4), random.randrange(128), random.randbytes(4)
    common = ["--start", "10us", "--jitter", "20ns", "--seed", seed]

    def sent(device: str, content: bytes, *words: object) -> Waves:
        return waves_of(called("piotool-stimulus", device, "--bytes", content.hex(), *common, *words))

    spi = spi_bytes(sent("spi", data, "--data", 2, "--sck", 3, "--select", 4, "--period", "1us", "--mode", mode), mode)
    i2c = i2c_bytes(sent("i2c", data, "--sda", 2, "--scl", 3, "--period", "2.5us", "--address", address, "--nack", len(data)))
    onewire = onewire_bytes(sent("onewire", data, "--pin", 2))
    nec = nec_bytes(sent("nec", frame, "--pin", 2))
    wanted = bytes([address << 1]) + data, [0] * len(data) + [1]
    found = {"spi": (spi, data), "i2c": (i2c, wanted), "onewire": (onewire, data), "nec": (nec, frame)}
    return "; ".join(f"{name} of the seed {seed}: {got} in the place of {it}" for name, (got, it) in found.items() if got != it)
