"""The pins of a set-up: what a block drives, what the outside drives, and overrides at the pads."""

from piotool.calls import Fault
from piotool.firmware_chip import Pads, Start
from piotool.firmware_map import FUNCTION_OF_BLOCK, PINS

INVERTED = 1


def bits_of(word: int) -> list[int]:
    """The pins whose bit is set."""
    return [pin for pin in range(32) if word >> pin & 1]


def pins_of(index: int, start: Start, open_drain: bool, is_pair: bool) -> tuple[dict[str, list[int]], list[str]]:
    """The lists of `[pins]`, and notes."""
    pads, levels, directions = start.pads, start.pins.levels, start.pins.directions
    own = sum(1 << pin for pin in range(PINS) if pads.function(pin) == FUNCTION_OF_BLOCK[index])
    lines = open_drain_lines(pads, own, open_drain)
    levels |= lines
    high = sum(outside(pads, pin) << pin for pin in range(PINS)) & ~lines
    pins = {"high": bits_of(high), "level": bits_of(levels), "out": bits_of(directions), "bypass": bits_of(start.bypass)}
    if index == 1 and is_pair:
        del pins["high"]
        pins["own"] = bits_of(own)
    return pins, notes_of(index, pads, own, directions)


def outside(pads: Pads, pin: int) -> int:
    """What a machine sees of the outside at a pin."""
    return pads.outside(pin) ^ (pads.override(pin, "INOVER") == INVERTED)


def open_drain_lines(pads: Pads, own: int, open_drain: bool) -> int:
    """The block's pins with an inverted output enable; they are refused where the call doesn't say what to make of them."""
    lines = 0
    for pin in bits_of(own):
        for name in ("OUTOVER", "OEOVER", "INOVER"):
            if pads.override(pin, name) > INVERTED:
                raise Fault(f"pin {pin} is held at a level by {name}: a configuration can't say it")
        if pads.override(pin, "OEOVER") == INVERTED:
            lines |= 1 << pin
    if lines and not open_drain:
        told = ", ".join(map(str, bits_of(lines)))
        raise Fault(f"pin {told} has an inverted output enable: give --open-drain, and read the line in its direction, 1 is let go")
    return lines


def notes_of(index: int, pads: Pads, own: int, directions: int) -> list[str]:
    """Notes on pins that aren't at the pad what the block has."""
    notes = []
    for pin in range(PINS) if pads.are_known else ():
        is_out = bool(directions >> pin & 1)
        if is_out and not own >> pin & 1:
            notes.append(f"Pin {pin} is an output of block {index} but not its pin (pio_gpio_init): nothing comes out on the chip.")
        if own >> pin & 1 and pads.override(pin, "OUTOVER") == INVERTED:
            notes.append(f"Pin {pin} is inverted on its way out: its pad has the other level than p{pin} of the trace.")
        if own >> pin & 1 and is_out and pads.override(pin, "INOVER") == INVERTED:
            notes.append(f"Pin {pin} is inverted on its way in, and the block drives it: what machines read there isn't the chip's.")
    return notes
