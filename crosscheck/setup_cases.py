"""What each set-up of crosscheck/firmware/cases.c has to come to: tables, stimulus, source, or the line that refuses it.

The values are worked out from the calls in C by the datasheet's registers and docs/SPECIFICATION.md, not from what the script wrote.
"""

from dataclasses import dataclass, field
from typing import Any

SQUARE = {"program": "square", "at": 29}
MACHINE = {"id": 0, "program": "square", "set_base": 3, "set_count": 1}
SENDS = {"id": 0, "program": "sends", "out_count": 8, "set_count": 0}


@dataclass
class Case:
    """A case: the tables of its configuration, its stimulus, what its source has, what its notes have, and options; or a refusal."""

    name: str
    load: dict[str, Any] = field(default_factory=lambda: SQUARE)
    machine: dict[str, Any] = field(default_factory=lambda: MACHINE)
    pins: dict[str, list[int]] = field(default_factory=lambda: {"out": [3]})
    stimulus: str | None = None
    source: str | None = None
    note: str = ""
    options: tuple[str, ...] = ()
    refused: str | None = None


CASES = [
    Case("usual", machine=MACHINE | {"divider": 12, "fraction": 128}),
    Case("pins_before_init", {"program": "level", "at": 4}, {"id": 0, "program": "level", "set_count": 0, "side_base": 6}, {"out": [6, 7]}),
    Case(
        "pins_after_init",
        {"program": "level", "at": 4},
        {"id": 0, "program": "level", "set_count": 0, "side_base": 6},
        {"level": [6, 7], "out": [6, 7]},
    ),
    # SET has pins 2 and 3 with the value 2; side-set has pin 2 with the value 1.
    Case(
        "side_set_wins",
        {"program": "maybe"},
        {"id": 0, "program": "maybe", "set_base": 2, "set_count": 2, "side_base": 2},
        {"level": [2, 3]},
    ),
    Case("registers_filled", machine=MACHINE | {"x": 0x12345678, "y": 9, "start": "last"}),
    Case("start_without_label", machine=MACHINE | {"start": "at_1"}, source="at_1:\n    set pins, 0\n"),
    Case(
        "words_before",
        {"program": "sends"},
        SENDS,
        {},
        "version 2\n0 disable 0\n0 tx 0 0x1\n1 tx 0 0x2\n2 restart 0\n2 enable 0\n2 feed 0 1 0x3\n",
    ),
    # ISR has the word that was put, 250; OSR too, which no instruction reads.
    Case("isr_filled", {"program": "period", "at": 30}, {"id": 0, "program": "period", "set_count": 0, "side_base": 16, "isr": 250}, {}),
    Case("isr_nobody_reads"),
    Case("isr_cleared", {"program": "period", "at": 30}, {"id": 0, "program": "period", "set_count": 0}, {}),
    Case("bits_shifted_in", {"program": "sends", "at": 28}, {"id": 0, "program": "sends", "set_count": 0, "isr_count": 3}, {}),
    Case("pull_waits", machine=MACHINE | {"pending": 0x80A0}),
    Case(
        "reads_pins",
        refused="machine 0: the word 0x4001 that is forced on it before the start reads pins, which the firmware alone doesn't say",
    ),
    Case("flag_up", refused="flag 1 of block 0 is up at the start: a configuration can't say it"),
    Case("sticky", refused="machine 0 has OUT_STICKY set: a configuration can't say it"),
    Case("inline_enable", refused="machine 0 has INLINE_OUT_EN set: a configuration can't say it"),
    Case(
        "two_wraps",
        refused="machine 1 runs square with another place, wrap, side-set or first lines than a machine before it: a configuration can't "
        "say both",
    ),
    Case(
        "two_side_sets",
        refused="machine 1 runs level with another place, wrap, side-set or first lines than a machine before it: a configuration can't say "
        "both",
    ),
    Case("one_other_wrap", source="up:\n    set pins, 1\n    set pins, 0\n.wrap\n"),
    Case("wrap_never_passed", {"program": "ends", "at": 2}, {"id": 0, "program": "ends", "set_base": 3, "set_count": 1}, {}),
    Case(
        "wrap_into_nothing",
        refused="machine 0 can run out of the program square to address 5: its wrap is from 31 to 0, and a configuration can't say what is "
        "there",
    ),
    # A byte fills its word four times, a half-word twice, with its bytes swapped before.
    Case(
        "dma_both_ways",
        {"program": "sends"},
        SENDS,
        {},
        "0 feed 0 1 0xa5a5a5a5 0xf0f0f0f 0x4d014d01 0x34123412\n0 drain 0 1\n",
    ),
    Case("enabled_twice", refused="machine 0 is enabled 2 times, each time set up otherwise: say which with --start N, 1 for the first"),
    Case("enabled_twice", options=("--start", "1")),
    Case("enabled_twice", machine=MACHINE | {"divider": 10}, options=("--start", "2")),
    Case("enabled_twice", options=("--start", "3"), refused="--start 3: no machine is enabled so often, but 2 times at most"),
    Case("stopped_and_gone_on"),
    Case("open_drain", refused="pin 3 has an inverted output enable: give --open-drain, and read the line in its direction, 1 is let go"),
    Case("open_drain", pins={"level": [3], "out": [3]}, options=("--open-drain",)),
    # Pin 8 is pulled up, pin 9 too and inverted, pin 10 is low and inverted, pin 11 is driven by the processor.
    Case("outside", pins={"high": [8, 10, 11], "out": [3], "bypass": [8]}),
    Case("second_block", pins={"high": [4]}),
    Case("never_enabled", refused="no machine is enabled: main returns: name the function that enables one by --entry"),
    Case(
        "waits_first",
        refused="no machine is enabled: the code comes round in waits_first, which waits for PIO0's IRQ: name the function that enables one "
        "by --entry",
    ),
    Case("changed_while_it_runs", note="Machine 0: while it runs SM0_CLKDIV is written; that isn't in the set-up."),
]
