"""Times of a bench: nanoseconds of a capture, clocks of the system, and how a call writes them."""

import argparse
import re
from dataclasses import dataclass
from fractions import Fraction
from typing import Optional

TIME = re.compile(r"([0-9]{1,30}(?:\.[0-9]{1,30})?)(ns|us|ms|s|clocks?)?")
NUMBER = re.compile(r"[+-]?[0-9]{1,30}(?:\.[0-9]{1,30}|/[0-9]{1,30})?")
NANOSECONDS = {"ns": 1, "us": 10**3, "ms": 10**6, "s": 10**9}


@dataclass(frozen=True)
class Time:
    """A time as a call has it: in nanoseconds, or in clocks of the system."""

    number: Fraction
    is_clocks: bool

    def clocks(self, mhz: Fraction) -> Fraction:
        """In clocks of so many MHz."""
        return self.number if self.is_clocks else self.number * mhz / 1000

    def nanoseconds(self, mhz: Fraction) -> Fraction:
        """In nanoseconds, with a clock of so many MHz."""
        return self.number * 1000 / mhz if self.is_clocks else self.number


def time_of(text: str) -> Time:
    """A word of a call as a time: `12ns`, `1.5us`, `3ms`, `2s`; `16` and `16clocks` are clocks."""
    found = TIME.fullmatch(text)
    if not found:
        raise argparse.ArgumentTypeError(f"{text!r} is no time, as 12ns, 1.5us, 3ms, 2s, or 16 clocks as 16")
    return Time(Fraction(found[1]) * NANOSECONDS.get(found[2], 1), found[2] not in NANOSECONDS)


def length_of(text: str) -> Time:
    """A time above 0."""
    time = time_of(text)
    if time.number == 0:
        raise argparse.ArgumentTypeError("a time above 0 is wanted")
    return time


def window_of(text: str) -> tuple[Time, Time]:
    """A word of a call as a part of a capture: `10us..20us`."""
    first, dots, last = text.partition("..")
    if not dots:
        raise argparse.ArgumentTypeError(f"{text!r} is no part of a capture, as 10us..20us")
    return time_of(first), time_of(last)


def number_of(text: str) -> Optional[Fraction]:
    """A number as a call writes it: with a point, or a fraction. A large exponent would take the memory of its digits."""
    try:
        return Fraction(text) if NUMBER.fullmatch(text) else None
    except ZeroDivisionError:
        return None


def mhz_of(text: str) -> Fraction:
    """A frequency of the system's clock in MHz."""
    mhz = number_of(text) or Fraction(0)
    if not 0 < mhz <= 10_000:
        raise argparse.ArgumentTypeError("a clock has a number of MHz above 0")
    return mhz


def add_mhz(parser: argparse.ArgumentParser) -> None:
    """Adds the frequency of the system's clock to the words of a call."""
    parser.add_argument("--mhz", type=mhz_of, default=Fraction(125), metavar="F", help="the system's clock in MHz (125)")


def nearest(number: Fraction) -> int:
    """The nearest whole number; of two, the greater."""
    return (2 * number.numerator + number.denominator) // (2 * number.denominator)


def shown(number: Fraction | float, digits: int = 1) -> str:
    """A number with at most so many decimals."""
    text = f"{float(number):.{digits}f}"
    text = text.rstrip("0").rstrip(".") if "." in text else text
    return "0" if text == "-0" else text
