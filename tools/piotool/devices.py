"""What devices drive on pins: a serial line, SPI, I2C, 1-Wire, NEC, a square wave; and the words of frames for TX. Times are in clocks."""

from argparse import Namespace
from fractions import Fraction

from piotool.calls import Fault
from piotool.waves import Waves

PARITY = {"none": (), "even": (0,), "odd": (1,)}


def bits_of(byte: int, is_low_first: bool = True) -> list[int]:
    """The bits of a byte, in the order in which they go."""
    bits = [byte >> place & 1 for place in range(8)]
    return bits if is_low_first else bits[::-1]


def known(numbers: list[int], count: int, option: str) -> set[int]:
    """The numbers of bytes at which a fault is made, each of a byte that there is."""
    for number in numbers:
        if not 0 <= number < count:
            raise Fault(f"--{option}: no byte {number}: there are {count}, from 0 on")
    return set(numbers)


def uart(words: Namespace, data: bytes, time: Fraction) -> Waves:
    """Frames of a start bit, eight data bits, a parity bit where one is asked for, and stop bits."""
    waves, rest = Waves(), int(not words.invert)
    waves.rest(words.pin, rest)
    wrong = known(words.wrong_stop, len(data), "wrong-stop")
    for place, byte in enumerate(data):
        bits = [0, *bits_of(byte), *(byte.bit_count() + odd & 1 for odd in PARITY[words.parity])]
        bits += [int(place not in wrong)] * words.stops
        for bit in bits:
            waves.drive(words.pin, bit ^ (1 - rest), time)
            time += words.bit
        waves.drive(words.pin, rest, time)
        time += words.gap
    return waves


def spi(words: Namespace, data: bytes, time: Fraction) -> Waves:
    """Bytes under chip select: data changes at one edge of the clock, and is right at the other."""
    waves, half = Waves(), words.period / 2
    rest, late = words.mode >> 1, words.mode & 1
    cut = known(words.cut, len(data), "cut")
    waves.rest(words.data, 0)
    for pin, level in ((words.sck, rest), (words.select, 1)):
        if pin is not None:
            waves.rest(pin, level)

    def put(pin: int | None, level: int) -> None:
        if pin is not None:
            waves.drive(pin, level, time)

    for place, byte in enumerate(data):
        put(words.select, 0)
        bits = bits_of(byte, words.low_first)[: 4 if place in cut else 8]
        if late:
            time += half
        for bit in bits:
            put(words.data, bit)
            if late:
                put(words.sck, 1 - rest)
            time += half
            put(words.sck, rest if late else 1 - rest)
            time += half
            if not late:
                put(words.sck, rest)
        if words.gap or place in cut or place == len(data) - 1:
            time += 0 if late else half
            put(words.select, 1)
        time += max(words.gap, half if place in cut else 0)
    return waves


def i2c(words: Namespace, data: bytes, time: Fraction) -> Waves:
    """A transfer as both lines show it: start, address, bytes, each with its acknowledge, stop."""
    waves, quarter = Waves(), words.period / 4
    waves.rest(words.sda, 1)
    waves.rest(words.scl, 1)
    sent = bytes([words.address << 1 | words.read]) + data
    nack = known(words.nack, len(sent), "nack")
    stretch = dict(words.stretch)
    known(list(stretch), len(sent), "stretch")
    waves.drive(words.sda, 0, time)
    time += quarter
    for place, byte in enumerate(sent):
        for number, bit in enumerate([*bits_of(byte, False), int(place in nack)]):
            waves.drive(words.scl, 0, time)
            waves.drive(words.sda, bit, time + quarter)
            time += 2 * quarter + (stretch.get(place, 0) if number == 8 else 0)
            waves.drive(words.scl, 1, time)
            time += 2 * quarter
        if words.gap and place < len(sent) - 1:
            waves.drive(words.scl, 0, time)
            time += words.gap
    waves.drive(words.scl, 0, time)
    waves.drive(words.sda, 0, time + quarter)
    waves.drive(words.scl, 1, time + 2 * quarter)
    waves.drive(words.sda, 1, time + 3 * quarter)
    return waves


def onewire(words: Namespace, data: bytes, time: Fraction) -> Waves:
    """A reset, the presence of a device, and a slot for each bit, in the standard times."""
    waves, us = Waves(), words.mhz
    waves.rest(words.pin, 1)

    def low(length: Fraction) -> None:
        waves.drive(words.pin, 0, time)
        waves.drive(words.pin, 1, time + length)

    if not words.no_reset:
        low(480 * us)
        time += 510 * us
        if not words.no_presence:
            low(120 * us)
        # After a reset the line is high for 480 us at least; a first slot at just that time is missed by some.
        time += 480 * us
    for byte in data:
        for bit in bits_of(byte):
            low((6 if bit else 60) * us)
            time += 70 * us
        time += words.gap
    return waves


def nec(words: Namespace, data: bytes, time: Fraction) -> Waves:
    """A frame of an infrared remote as its receiver gives it, which rests high: burst, pause, bits, end; then repeats."""
    waves, unit, rest = Waves(), words.unit, int(not words.invert)
    waves.rest(words.pin, rest)

    def burst(units: int, pause: int) -> None:
        nonlocal time
        waves.drive(words.pin, 1 - rest, time)
        waves.drive(words.pin, rest, time + units * unit)
        time += (units + pause) * unit

    for place in range(0, len(data), 4):
        burst(16, 8)
        for byte in data[place : place + 4]:
            for bit in bits_of(byte):
                burst(1, 3 if bit else 1)
        burst(1, 0)
        time += words.gap
    for _ in range(words.repeats):
        burst(16, 4)
        burst(1, 0)
        time += words.gap
    return waves


def square(words: Namespace, time: Fraction) -> Waves:
    """A number of pulses."""
    waves = Waves()
    high = words.period / 2 if words.high is None else words.high
    if high >= words.period:
        raise Fault("--high: a pulse is shorter than its period")
    waves.rest(words.pin, 0)
    missing = known(words.missing, words.count, "missing")
    for place in range(words.count):
        if place not in missing:
            waves.drive(words.pin, 1, time)
            waves.drive(words.pin, 0, time + high)
        time += words.period
    return waves


def frames(words: Namespace, values: list[int], time: Fraction) -> str:
    """The lines that send words: one feed, or `tx` lines with pauses between frames."""
    size = words.frame or len(values)
    if words.every is None:
        if size < len(values):
            raise Fault("a second feed of a machine is T4: several frames are sent by tx lines, so --every is wanted")
        shown = " ".join(f"0x{value:08x}" for value in values)
        return f"{int(time)} feed {words.machine} 1 {shown}\n"
    text, last = "", -1
    for place, value in enumerate(values):
        if place and place % size == 0:
            time += words.gap
        last = max(last + 1, int(time))
        text += f"{last} tx {words.machine} 0x{value:08x}\n"
        time += words.every
    return text
