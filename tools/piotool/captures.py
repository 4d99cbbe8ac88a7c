"""Captures of a logic analyser or a simulator: value-change dumps of any tool, and the tables of sigrok and Saleae."""

import argparse
import re
from dataclasses import dataclass
from fractions import Fraction
from pathlib import Path
from typing import Optional

from piotool.calls import Fault, read_text
from piotool.traces import Bit

PIN = re.compile(r"(\d+)(?:=(.+))?")
LAST_NUMBER = re.compile(r"(?:.*\D)?0*(\d{1,9})\]?")


@dataclass
class Capture:
    """The one-bit signals of a capture by name: times are whole units, and a unit has so many nanoseconds.

    A trace of piotool is one too: its unit is a clock, whatever the file says, and `unit` is none.
    """

    path: str
    unit: Optional[Fraction]
    bits: dict[str, Bit]
    first: int
    last: int
    unknown: int = 0  # how many values were neither 0 nor 1; the level before is kept

    def clocks_a_unit(self, mhz: Fraction) -> Fraction:
        """The clocks of a unit."""
        return Fraction(1) if self.unit is None else self.unit * mhz / 1000

    def named(self, name: str) -> Bit:
        """The signal of this name, or of this last part of its name."""
        if name in self.bits:
            return self.bits[name]
        ends = [it for it in self.bits if it.endswith("." + name)]
        if len(ends) == 1:
            return self.bits[ends[0]]
        known = ", ".join(list(self.bits)[:12])
        raise Fault(f"{self.path}: {'several signals are' if ends else 'no signal is'} called {name!r}; it has {known}")

    def pins(self, words: list[str]) -> dict[int, str]:
        """The signals of pins as a call names them (`4=D0`, or `4` for the signal whose name ends so); without words, all of them."""
        return {int(PIN.fullmatch(word)[1]): self.name_for(word) for word in words} if words else self.all_pins()

    def name_for(self, word: str) -> str:
        """The signal's name in the word of a pin."""
        pin, name = PIN.fullmatch(word).groups()
        if name is None:
            name = self.all_pins().get(int(pin), pin)
        self.named(name)
        return name

    def all_pins(self) -> dict[int, str]:
        """The signals by the number at the end of their names. Of a trace of piotool these are the output levels."""
        names = [it for it in self.bits if self.unit is not None or it[0] == "p"]
        found: dict[int, str] = {}
        for name in names:
            number = LAST_NUMBER.fullmatch(name)
            pin = int(number[1]) if number else 32
            if pin > 31 or pin in found:
                raise Fault(f"{self.path}: the signals' names don't say their pins ({', '.join(names[:12])}); --pin 4={names[0]} does")
            found[pin] = name
        return found


def pin_of(text: str) -> str:
    """A word of a call that names a pin of 0 to 31, and its signal."""
    found = PIN.fullmatch(text)
    if not found or int(found[1]) > 31:
        raise argparse.ArgumentTypeError(f"{text!r} is no pin of 0 to 31, as 4 or 4=D0")
    return text


def read_capture(path: str | Path) -> Capture:
    """The capture in a file, whatever of the known forms it has."""
    from piotool.capture_tables import read_changes, read_rows
    from piotool.capture_vcd import read_dump

    text = read_text(path).removeprefix("\ufeff")
    start = text.lstrip()
    if start.startswith("$"):
        return read_dump(str(path), text)
    if start.startswith(";"):
        return read_rows(str(path), text)
    if start[:4].lower() == "time":
        return read_changes(str(path), text)
    raise Fault(f"{path}: line 1: neither a value-change dump nor a table of sigrok or Saleae")
