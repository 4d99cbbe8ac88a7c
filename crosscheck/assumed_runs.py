"""Runs of proved spans that assume, in each of which the end of what is assumed was worked out by hand.

The programs shift the numbers of their pulses out of the OSR, four bits each: 0x942 is 2, then 4, then 9. A pulse of x takes x + 1 ticks.
Of a row the numbers are the pairs of edges, in clocks, that close before the end, and the end: the clock in which the delay behind the
instruction is over that left a register outside its range, or None where the run has no such clock. A pair that closes in the clock
before the end counts, and one that closes in the end doesn't, so a clock earlier or later is wrong.
"""

from dataclasses import dataclass, field
from pathlib import Path

import observers_model
from piotool import span_model
from piotool.block_model import Line
from piotool.calls import piotool
from piotool.programs import set_up_by
from piotool.setups import read_tables
from piotool.span_runs import broken_at, run_of

# A pulse for each number: `out` at clock 0, the rise behind its delay, the fall in the next `out`.
PULSES = """.program p
.side_set 1
load:
    out x, 4        side 0 [{delay}]
high:
    jmp x-- high    side 1
"""
OF_Y = PULSES.replace("x", "y")
LATER = """.program p
.side_set 1
    out x, 4        side 0
check:
    nop             side 0 [1]
high:
    jmp x-- high    side 1
"""
AFTER_A_START = """.program p
.side_set 1
    nop             side 0
.wrap_target
load:
    out x, 4        side 0
high:
    jmp x-- high    side 1
"""
OF_TWO = """.program p
.side_set 1
load:
    out x, 4        side 0
second:
    out y, 4        side 0
high:
    jmp x-- high    side 1
also:
    jmp y-- also    side 1
"""
OF_WORDS = PULSES.replace("x, 4 ", "x, 32")
FEW = [{"after": "load", "x": [0, 4]}]
AUTOPULL = {"autopull": "true", "osr_count": 32}


@dataclass
class Row:
    """A run: the program with its delay, the numbers in the OSR, the span's bounds and what it assumes; and what was worked out."""

    what: str
    pairs: list[int]
    end: int | None
    source: str = PULSES
    delay: int = 0
    osr: int = 0x942
    bounds: tuple[int, int] = (1, 5)
    assume: list[dict] = field(default_factory=lambda: FEW)
    keys: dict = field(default_factory=dict)  # of the machine
    span: dict = field(default_factory=dict)  # more keys of the span
    stimulus: str = "version 2\n"
    clocks: int = 60
    other: int | None = None  # what machine 0 has in its OSR, where the span is of machine 1
    is_broken: bool = True  # whether the run breaks the span, if nothing ended what it speaks of

    def config(self) -> str:
        """The configuration, in which pin 0 is that of machine 0, and pin 1 that of machine 1."""
        machines = [self.osr] if self.other is None else [self.other, self.osr]
        text = '[[load]]\nprogram = "p"\n[pins]\nout = [0, 1]\n'
        for number, osr in enumerate(machines):
            keys = {"osr": osr, "osr_count": 0, "set_count": 0, "side_base": number} | self.keys
            text += f'[[machine]]\nid = {number}\nprogram = "p"\n' + "".join(f"{key} = {value}\n" for key, value in keys.items())
        own = len(machines) - 1
        text += f'[[span]]\nname = "high"\nmachine = {own}\nfrom_pin = {own}\nfrom_edge = "rise"\nto_pin = {own}\nto_edge = "fall"\n'
        text += f"min = {self.bounds[0]}\nmax = {self.bounds[1]}\n" + "".join(f"{key} = {value}\n" for key, value in self.span.items())
        for one in self.assume:
            text += f'[[span.assume]]\nafter = "{one["after"]}"\n' + "".join(f"{it} = {one[it]}\n" for it in ("x", "y") if it in one)
        return text

    def line(self) -> str:
        """The line of `measure`."""
        times = f" least {min(self.pairs)} most {max(self.pairs)}" if self.pairs else ""
        return f"span high seen {len(self.pairs)}{times}" + (f" assumed up to {self.end}" if self.end is not None else "")


ROWS = [
    # out at 0 (2), 4 (4), 10 (9): high in 1..3 and 5..9.
    Row("no delay: the instruction's own clock", [3], 10),
    # out at 0, 5, 12, each with a tick of delay: high in 2..4 and 7..11.
    Row("a delay of one: its tick", [3, 5], 13, delay=1),
    # out at 0, 7, 16: high in 4..6 and 11..15; delays up to 19.
    Row("a delay of three", [3, 5], 19, delay=3),
    # out at 0, 19, 40; delays up to 55.
    Row("a delay of fifteen", [3, 5], 55, delay=15, clocks=80),
    Row("a delay that isn't over in the run", [3, 5], None, delay=15, clocks=55, is_broken=False),
    Row("one that is over in the run's last clock", [3, 5], 55, delay=15, clocks=56, is_broken=False),
    Row("a run before the clock that misses", [3], None, clocks=10, is_broken=False),
    Row("a run up to the clock that misses", [3], 10, clocks=11, is_broken=False),
    # The same ticks, each of two clocks.
    Row("two clocks a tick", [6], 20, keys={"divider": 2}),
    Row("two clocks a tick, and a delay of one", [6, 10], 26, delay=1, keys={"divider": 2}),
    Row("the same of a span in clocks", [6, 10], 26, delay=1, keys={"divider": 2}, bounds=(2, 10), span={"unit": '"clocks"'}),
    # Tick t is in clock 3t/2: out in the ticks 0, 6, 14; high from 3 to 6 (clocks 4 to 9) and from 9 to 14 (13 to 21); the last delay is 16.
    Row("a tick and a half, and a delay of two", [5, 8], 24, delay=2, keys={"divider": 1, "fraction": 128}),
    # out at 0, 6, 12, 18, 20, 22: high in 1..5, 7..11, 13..17, 19, 21; at 23 it rises again.
    Row("the greatest number is in the range", [5, 5, 5, 1, 1], None, osr=0x444, clocks=24, is_broken=False),
    Row("one more isn't, from the first clock on", [], 0, osr=0x5),
    # out at 0 (1), 3 (4), 9 (1), 12 (0).
    Row("the least number is, and one less isn't", [2, 5], 12, osr=0x141, bounds=(2, 5), assume=[{"after": "load", "x": [1, 4]}]),
    Row("Y as X", [3, 5], 13, source=OF_Y, delay=1, assume=[{"after": "load", "y": [0, 4]}]),
    Row("the second of two at one label", [3], 10, bounds=(3, 5), assume=[{"after": "load", "x": [0, 9]}, {"after": "load", "x": [2, 4]}]),
    Row("the first of two at one label", [3, 5], 13, delay=1, bounds=(3, 5), assume=[{"after": "load", "x": [2, 4]}, {"after": "load", "x": [0, 9]}]),
    # out at 0, 6, 14, the nop behind it with its delay: high in 3..5 and 9..13; the last nop is at 15.
    Row("a later instruction than the one that writes", [3, 5], 16, source=LATER, assume=[{"after": "check", "x": [0, 4]}]),
    Row("a number from before the label is no matter", [3], 11, source=AFTER_A_START, keys={"x": 100}),
    # The jump itself leaves 1, 0, and 2^32 - 1 in clock 3, in which it is gone through.
    Row("the loop's own jump", [], 3, osr=0x2, assume=[*FEW, {"after": "high", "x": [0, 3]}], is_broken=False),
    # x at 0 and 7, y at 1 and 8: high in 2..6, for x in 2, 3 and for y in 4, 5, 6.
    Row("two registers", [5], 8, source=OF_TWO, osr=0xF421, bounds=(2, 8), assume=[*FEW, {"after": "second", "y": [0, 2]}]),
    # The word of clock 0 is taken at 1 and shifted at 2: high in 3..7. That of clock 20 is taken at 21, and the instruction ends at 22.
    Row("an instruction that waits", [5], 22, source=OF_WORDS, keys=AUTOPULL, stimulus="version 2\n0 tx 0 4\n20 tx 0 9\n"),
    # One tick of the delay comes at 17; two at 30 and 31.
    Row("a machine that is disabled in the delay", [3, 5], 31, delay=3, stimulus="version 2\n18 disable 0\n30 enable 0\n"),
    Row("one that stays so", [3, 5], None, delay=3, stimulus="version 2\n18 disable 0\n", is_broken=False),
    # Ticks at each fourth clock: out at 0, 24, 56; of the delay of two at 60, and at 61, where the divider restarts.
    Row("a divider that restarts in the delay", [12, 20], 61, delay=2, keys={"divider": 4}, stimulus="version 2\n61 restart 0\n", clocks=120),
    Row("another machine's numbers", [3], 10, other=0x999),
    Row("prompt beside it", [3, 5], 13, delay=1, span={"prompt": "true"}),
]


def faults(folder: Path) -> list[str]:
    """What is wrong with rows, by the models and by the program on the path; files are written into a folder."""
    return [f"{row.what}: {told}" for row in ROWS if (told := fault(row, folder))]


def fault(row: Row, folder: Path) -> str:
    """What is wrong with a row, or nothing."""
    source, config, stimulus = (folder / f"assumed.{it}" for it in ("pio", "toml", "stim"))
    for path, text in ((source, row.source.format(delay=row.delay)), (config, row.config()), (stimulus, row.stimulus)):
        path.write_text(text)
    files = ["--source", source, "--config", config]
    status, verdict, told = piotool("check", *files)
    block = set_up_by(source, read_tables(config))
    setup, span = (block.memory, block.setups, block.pins), block.spans[0]
    if status or verdict != f"span high {span_model.verdict(*setup, span)}\n" or " proved opens yes closes yes under " not in verdict:
        return f"check says {verdict or told}, the model {span_model.verdict(*setup, span)}"
    lines = lines_of(row.stimulus)
    run = run_of(block, lines, row.clocks, spans=[span])
    if run.spoken(span) != (row.clocks if row.end is None else row.end):
        return f"the run is spoken of up to {run.spoken(span)}, not {row.end}"
    if broken := broken_at(block, span, run, lines):
        return f"the span is proved, and the run has {broken}"
    if (broken_at(block, span | {"assume": []}, run, lines) is not None) != row.is_broken:
        return "without an end nothing is broken" if row.is_broken else "without an end the run breaks the span"
    seen = observers_model.seen([span], observers_model.Run(*setup, lines, row.clocks))
    measured = piotool("measure", *files, "--stimulus", stimulus, "--clocks", row.clocks)
    for who, text in (("the model", seen), ("measure", measured[1])):
        if text != f"{row.line()}\n":
            return f"{who} says {text}, not {row.line()}"
    return ""


def lines_of(text: str) -> list[Line]:
    """The lines of a stimulus."""
    fields = [line.split() for line in text.splitlines()[1:]]
    return [(int(clock), word, [int(it) for it in numbers]) for clock, word, *numbers in fields]
