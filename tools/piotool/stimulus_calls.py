"""The calls of `piotool-stimulus`: their words, and what each writes."""

import argparse
import gc
import math
import shlex
import sys
from fractions import Fraction
from pathlib import Path
from random import Random
from typing import Any, Callable, Optional

from piotool import devices
from piotool.calls import Fault
from piotool.captures import Capture, pin_of, read_capture
from piotool.real_time import Time, add_mhz, length_of, nearest, number_of, shown, time_of, window_of
from piotool.stimulus_join import joined
from piotool.waves import Edges, in_clocks, text_of_pins

Parser = argparse.ArgumentParser
MOST_SHOWN = 3  # pulses shorter than a clock


def number(least: int, most: int) -> Callable[[str], int]:
    """The kind of a word that is a number of this range."""

    def read(text: str) -> int:
        try:
            value = int(text, 0)
        except ValueError:
            value = least - 1
        if not least <= value <= most:
            raise argparse.ArgumentTypeError(f"{text!r} is no number from {least} to {most}")
        return value

    return read


def bytes_of(text: str) -> bytes:
    """Bytes as a word of a call: `55 c3` or `0x55,0xc3`."""
    try:
        return bytes.fromhex(text.replace("0x", "").replace(",", " "))
    except ValueError:
        raise argparse.ArgumentTypeError(f"{text!r} are no bytes, as '55 c3'") from None


def glitch_of(text: str) -> tuple[Optional[int], Time, Time]:
    """A glitch as a word of a call: `[PIN@]TIME[:WIDTH]`."""
    pin, at, rest = text.rpartition("@")
    time, colon, width = rest.partition(":")
    return number(0, 31)(pin) if at else None, time_of(time), length_of(width if colon else "1")


def stretch_of(text: str) -> tuple[int, Time]:
    """A place where the clock is stretched, and for how long: `BYTE:TIME`."""
    byte, _, time = text.partition(":")
    return number(0, 10**6)(byte), length_of(time)


def ppm_of(text: str) -> Fraction:
    """Millionths as a word of a call."""
    ppm = number_of(text)
    if ppm is None or abs(ppm) > 500_000:
        raise argparse.ArgumentTypeError(f"{text!r} is no number of millionths up to 500000")
    return ppm


PIN, BYTE = number(0, 31), number(0, 10**6)


def add_bytes(parser: Parser, is_needed: bool = True) -> None:
    """Adds what is sent."""
    sent = parser.add_mutually_exclusive_group(required=is_needed)
    sent.add_argument("--bytes", type=bytes_of, metavar="B", help="the bytes in hexadecimal, as '55 c3'")
    sent.add_argument("--file", metavar="F", help="a file of the bytes")
    if not is_needed:
        sent.add_argument("--words", type=number(0, 2**32 - 1), nargs="+", metavar="W", help="the words")


def add_times(parser: Parser, gap: str) -> None:
    """Adds the times of any device."""
    add_mhz(parser)
    parser.add_argument("--start", type=time_of, default=Time(Fraction(0), True), metavar="T", help="when it begins (0)")
    parser.add_argument("--gap", type=time_of, default=Time(Fraction(0), True), metavar="T", help=gap)
    parser.add_argument("--jitter", type=time_of, default=Time(Fraction(0), True), metavar="T", help="each edge is up to so much early or late")
    parser.add_argument("--seed", type=int, default=0, metavar="N", help="the seed of the jitter (0)")
    parser.add_argument("--ppm", type=ppm_of, default=Fraction(0), metavar="N", help="how much longer the device's times are, in millionths")
    parser.add_argument(
        "--glitch", type=glitch_of, action="append", default=[], metavar="[PIN@]T[:W]", help="a pin is turned round at T for W (a clock)"
    )


def read_words(about: str) -> argparse.Namespace:
    """The words of the call."""
    parser = Parser(prog="piotool-stimulus", description=about, formatter_class=argparse.RawDescriptionHelpFormatter)
    parser.add_argument("--join", nargs="+", metavar="STIMULUS", help="write these stimuli as one; a faulty line is told with its file")
    parser.add_argument("--pair", action="store_true", help="of --join: machines 4 to 7 too, for `piotool pair`")
    calls = parser.add_subparsers(dest="call", metavar="CALL")

    def call(name: str, about: str) -> Parser:
        return calls.add_parser(name, help=about, description=about)

    one = call("capture", "the pins of a capture")
    one.add_argument("file", metavar="FILE", help="a value-change dump, sigrok's CSV, or Saleae's CSV of changes")
    add_mhz(one)
    one.add_argument("--at", type=window_of, metavar="A..B", help="this part of it, as 10us..20us; clock 0 is its begin")
    one.add_argument("--pin", type=pin_of, nargs="+", default=[], metavar="P=NAME", help="pins and their signals (the number that ends each name)")
    one = call("uart", "a serial line")
    add_bytes(one)
    add_times(one, "between a stop bit and the next start bit")
    one.add_argument("--pin", type=PIN, required=True)
    bit = one.add_mutually_exclusive_group(required=True)
    bit.add_argument("--bit", type=length_of, metavar="T", help="the time of a bit")
    bit.add_argument("--baud", type=number(1, 10**9), metavar="N", help="the bits of a second")
    one.add_argument("--stops", type=number(1, 2), default=1, metavar="N", help="how many stop bits (1)")
    one.add_argument("--parity", choices=devices.PARITY, default="none")
    one.add_argument("--invert", action="store_true", help="the line rests low")
    one.add_argument("--wrong-stop", type=BYTE, nargs="+", default=[], metavar="N", help="fault: these bytes, from 0 on, end with a low stop bit")
    one = call("spi", "clock, data and chip select")
    add_bytes(one)
    add_times(one, "chip select is high for so long between bytes")
    one.add_argument("--data", type=PIN, required=True, metavar="P")
    one.add_argument("--sck", type=PIN, metavar="P")
    one.add_argument("--select", type=PIN, metavar="P")
    one.add_argument("--period", type=length_of, required=True, metavar="T", help="the time of a bit")
    one.add_argument("--mode", type=number(0, 3), default=0, metavar="N", help="0 to 3 (0)")
    one.add_argument("--low-first", action="store_true", help="the lowest bit goes first")
    one.add_argument("--cut", type=BYTE, nargs="+", default=[], metavar="N", help="fault: these bytes end after four bits")
    one = call("i2c", "both lines of a transfer")
    add_bytes(one)
    add_times(one, "the clock is low for so long between bytes")
    one.add_argument("--sda", type=PIN, required=True, metavar="P")
    one.add_argument("--scl", type=PIN, required=True, metavar="P")
    one.add_argument("--period", type=length_of, required=True, metavar="T", help="the time of a bit")
    one.add_argument("--address", type=number(0, 127), required=True, metavar="A")
    one.add_argument("--read", action="store_true", help="the device sends the bytes")
    one.add_argument("--nack", type=BYTE, nargs="+", default=[], metavar="N", help="fault: these bytes aren't acknowledged; the address is 0")
    one.add_argument("--stretch", type=stretch_of, nargs="+", default=[], metavar="N:T", help="fault: the device holds the clock low after byte N")
    one = call("onewire", "reset, presence and slots of 1-Wire")
    add_bytes(one)
    add_times(one, "between bytes")
    one.add_argument("--pin", type=PIN, required=True)
    one.add_argument("--no-reset", action="store_true", help="only the slots")
    one.add_argument("--no-presence", action="store_true", help="fault: no device answers the reset")
    one = call("nec", "a remote control as its receiver gives it, four bytes a frame")
    add_bytes(one)
    add_times(one, "after a frame")
    one.add_argument("--pin", type=PIN, required=True)
    one.add_argument("--unit", type=length_of, default=Time(Fraction(562500), False), metavar="T", help="the time of a short burst (562.5us)")
    one.add_argument("--invert", action="store_true", help="the line rests low")
    one.add_argument("--repeats", type=number(0, 1000), default=0, metavar="N", help="so many repeat codes after the frames")
    one = call("square", "a square wave")
    add_times(one, "not used")
    one.add_argument("--pin", type=PIN, required=True)
    one.add_argument("--period", type=length_of, required=True, metavar="T")
    one.add_argument("--high", type=length_of, metavar="T", help="the time of a pulse (half a period)")
    one.add_argument("--count", type=number(1, 500_000), required=True, metavar="N", help="how many periods")
    one.add_argument("--missing", type=BYTE, nargs="+", default=[], metavar="N", help="fault: these pulses, from 0 on, don't come")
    one = call("frames", "words for TX: a feed, or tx lines with pauses between frames")
    add_bytes(one, is_needed=False)
    add_mhz(one)
    one.add_argument("--machine", type=number(0, 7), default=0, metavar="M")
    one.add_argument("--size", type=number(1, 4), default=4, metavar="N", help="bytes of a word, the upper one first (4)")
    one.add_argument("--left", action="store_true", help="in the upper bits, for a machine that shifts left")
    one.add_argument("--frame", type=number(1, 10**6), metavar="N", help="words of a frame (all)")
    one.add_argument("--every", type=length_of, metavar="T", help="the time from a word to the next: tx lines (without it: a feed)")
    one.add_argument("--gap", type=time_of, default=Time(Fraction(0), True), metavar="T", help="the pause after a frame")
    one.add_argument("--start", type=time_of, default=Time(Fraction(0), True), metavar="T", help="when it begins (0)")
    words = parser.parse_args()
    if (words.call is None) == (words.join is None):
        parser.error("a call or --join is wanted")
    return words


def sent_by(words: argparse.Namespace) -> bytes:
    """The bytes that are sent."""
    if words.file is None:
        return words.bytes
    try:
        return Path(words.file).read_bytes()
    except OSError as fault:
        raise Fault(f"{words.file}: {fault.strerror}") from None


def called() -> str:
    """The call, as one line."""
    return " ".join(shlex.join(["piotool-stimulus", *sys.argv[1:]]).split())


def in_clocks_of(words: argparse.Namespace, factor: Fraction) -> argparse.Namespace:
    """The words with their times in clocks of the system; a device's are longer by a factor."""
    return argparse.Namespace(**{key: in_system_clocks(value, words.mhz, factor) for key, value in vars(words).items()})


def in_system_clocks(value: Any, mhz: Fraction, factor: Fraction) -> Any:
    """The times of a word of the call in clocks of the system, by the clock of the device."""
    if isinstance(value, Time):
        return value.clocks(mhz) * factor
    return [tuple(in_system_clocks(it, mhz, factor) for it in part) for part in value] if is_pairs(value) else value


def is_pairs(value: Any) -> bool:
    """Whether it is a list of tuples."""
    return isinstance(value, list) and any(isinstance(it, tuple) for it in value)


def of_device(words: argparse.Namespace) -> str:
    """The text of what a device drives."""
    if getattr(words, "baud", None):
        words.bit = Time(Fraction(10**9, words.baud), False)
    times = in_clocks_of(words, 1 + words.ppm / 10**6)
    start = words.start.clocks(words.mhz)
    make = getattr(devices, words.call)
    waves = make(times, start) if words.call == "square" else make(times, sent_by(words), start)
    waves.jitter(words.jitter.clocks(words.mhz), Random(words.seed))
    for pin, time, width in words.glitch:
        waves.glitch(next(iter(waves.start)) if pin is None else pin, time.clocks(words.mhz), width.clocks(words.mhz))
    lines, dropped = waves.lines()
    text = text_of_pins(lines, waves.start, called())
    if dropped:
        print(f"piotool-stimulus: {dropped} pulses are shorter than a clock, and left out", file=sys.stderr)
    return text


def of_frames(words: argparse.Namespace) -> str:
    """The text of words for TX."""
    values = words.words
    if values is None and words.bytes is None and words.file is None:
        raise Fault("frames: --words, --bytes or --file is wanted")
    if values is None:
        data, size = sent_by(words), words.size
        if len(data) % size:
            raise Fault(f"{len(data)} bytes are no whole words of {size}")
        values = [int.from_bytes(data[at : at + size], "big") << 8 * (4 - size) * words.left for at in range(0, len(data), size)]
    if not values:
        raise Fault("frames: no word")
    return devices.frames(in_clocks_of(words, Fraction(1)), values, words.start.clocks(words.mhz))


def of_capture(words: argparse.Namespace) -> str:
    """The text of the pins of a capture; what was left out goes to standard error."""
    capture = read_capture(words.file)
    factor = capture.clocks_a_unit(words.mhz)
    first, last = capture.first, capture.last
    if words.at:
        first, last = (nearest(time.clocks(words.mhz) / factor) for time in words.at)
        if not capture.first <= first < last <= capture.last:
            raise Fault(f"{words.file}: no such part: it goes from {told(capture, words, capture.first)} to {told(capture, words, capture.last)}")
    lines: list[tuple[int, int, int]] = []
    start, short, dropped, clock = {}, [], 0, math.ceil(1 / factor)
    for pin, name in sorted(capture.pins(words.pin).items()):
        bit = capture.named(name)
        start[pin] = bit.at(first)
        edges = [edge for edge in bit.edges(start[pin]) if first < edge[0] <= last]
        # A pulse of fewer units is shorter than a clock.
        short += [(edge[0], pin) for edge, after in zip(edges, edges[1:]) if after[0] - edge[0] < clock]
        kept, count = in_clocks(clocks_of(edges, first, factor))
        dropped += count
        lines += [(clock, pin, level) for clock, level in kept]
    text = text_of_pins(sorted(lines), start, f"piotool-stimulus: {Path(words.file).name}, {shown(words.mhz, 6)} MHz")
    tell_short(words, capture, sorted(short), dropped)
    return text


def clocks_of(edges: Edges, first: int, factor: Fraction) -> Edges:
    """Edges in the nearest clocks from a first time on."""
    times, twice = 2 * factor.numerator, 2 * factor.denominator
    half = factor.denominator
    return [(((time - first) * times + half) // twice, level) for time, level in edges]


def told(capture: Capture, words: argparse.Namespace, time: int) -> str:
    """A time of a capture in microseconds."""
    return f"{shown(time * capture.clocks_a_unit(words.mhz) / words.mhz, 4)}us"


def tell_short(words: argparse.Namespace, capture: Capture, short: list[tuple[int, int]], dropped: int) -> None:
    """Tells of pulses that are shorter than a clock, and of values that are neither 0 nor 1."""
    if short:
        count = f"{len(short)} pulses are" if len(short) > 1 else "1 pulse is"
        places = ", ".join(f"pin {pin} at {told(capture, words, time)}" for time, pin in short[:MOST_SHOWN])
        more = ", .." if len(short) > MOST_SHOWN else ""
        print(f"piotool-stimulus: {words.file}: {count} shorter than a clock, {dropped} of them left out: {places}{more}", file=sys.stderr)
    if capture.unknown:
        print(f"piotool-stimulus: {words.file}: {capture.unknown} values are neither 0 nor 1; the level before is kept", file=sys.stderr)


def work(about: str) -> int:
    """Writes the stimulus that the words ask for."""
    gc.disable()  # a capture has millions of small values, none of them in a cycle
    words = read_words(about)
    if words.join:
        text = joined(words.join, 7 if words.pair else 3)
    else:
        text = {"capture": of_capture, "frames": of_frames}.get(words.call, of_device)(words)
    sys.stdout.write(text)
    return 0
