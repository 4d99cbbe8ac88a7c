"""What the programs of this folder use of MicroPython's `rp2.py`, in words of its own, so that they run where its source isn't there.

The words are those of the datasheet's table of instructions; what a program is made into is what `_rp2` takes. One pass reads the
lines, and the words are made when all labels are known.
"""

import types
from array import array
from dataclasses import dataclass
from typing import Any, Callable

from _rp2 import DMA, PIO, StateMachine  # noqa: F401

PLACES = {"pins": 0, "x": 1, "y": 2, "null": 3, "pindirs": 4, "pc": 5, "status": 5, "isr": 6, "osr": 7, "exec": 8, "gpio": 0, "pin": 6}
CONDITIONS = {"not_x": 1, "x_dec": 2, "not_y": 3, "y_dec": 4, "x_not_y": 5, "not_osre": 7}
IF, BLOCK, NOBLOCK, CLEAR = 0x40, 0x20, 0x01, 0x40
WORDS: dict[str, Any] = PLACES | CONDITIONS | {"iffull": IF, "ifempty": IF, "block": BLOCK, "noblock": NOBLOCK, "clear": CLEAR}
FUNCTIONS = {"rel": lambda index: index | 0x10, "invert": lambda source: source | 8, "reverse": lambda source: source | 16}


class PIOASMError(Exception):
    """A mistake in a program."""


@dataclass
class Line:
    """An instruction: its word, the label that it jumps to, its delay and its side-set."""

    word: int
    target: str | None = None
    pause: int = 0
    value: int | None = None

    def side(self, value: int) -> "Line":
        """With side-set."""
        self.value = value
        return self

    def __getitem__(self, pause: int) -> "Line":
        """With a delay."""
        self.pause = pause
        return self

    delay = __getitem__


class PIOASMEmit:
    """A program while it is made: its labels and lines, and the number of side-set bits, with that of `opt`."""

    def __init__(self, **words: Any) -> None:
        self.words, self.lines = words, []  # type: dict[str, Any], list[Line]
        self.labels: dict[str, int] = {}
        self.bottom, self.top = 0, -1
        side = words.get("sideset_init")
        self.sideset_count = 0 if side is None else 1 if isinstance(side, int) else len(side)

    def line(self, word: int, target: str | None = None) -> Line:
        """One more instruction."""
        self.lines.append(Line(word, target))
        return self.lines[-1]

    def names(self) -> dict[str, Any]:
        """What a program's function finds."""
        return WORDS | FUNCTIONS | {name: getattr(self, name) for name in INSTRUCTIONS} | {"range": range}

    def label(self, name: str) -> None:
        """The place of the next instruction."""
        if name in self.labels:
            raise PIOASMError(f"duplicate label {name}")
        self.labels[name] = len(self.lines)

    def wrap_target(self) -> None:
        """Where the wrap goes."""
        self.bottom = len(self.lines)

    def wrap(self) -> None:
        """The instruction before is the last one."""
        self.top = len(self.lines) - 1

    def word(self, word: int, target: str | None = None) -> Line:
        return self.line(word, target)

    def nop(self) -> Line:
        return self.line(0xA042)

    def jmp(self, condition: Any, target: str | None = None) -> Line:
        return self.line(0, condition) if target is None else self.line(condition << 5, target)

    def wait(self, polarity: int, source: Any, index: int) -> Line:
        kind = {PLACES["gpio"]: 0, PLACES["pin"]: 1}.get(source, 2) if isinstance(source, int) else 2
        return self.line(0x2000 | polarity << 7 | kind << 5 | index)

    def in_(self, source: int, count: int) -> Line:
        return self.line(0x4000 | source << 5 | count & 31)

    def out(self, place: int, count: int) -> Line:
        return self.line(0x6000 | min(place, 7) << 5 | count & 31)

    def push(self, *said: int) -> Line:
        return self.line(0x8000 | stall(said))

    def pull(self, *said: int) -> Line:
        return self.line(0x8080 | stall(said))

    def mov(self, place: int, source: int) -> Line:
        return self.line(0xA000 | (4 if place == 8 else place) << 5 | source)

    def irq(self, *said: int) -> Line:
        return self.line(0xC000 | (said[0] & 0x60 if len(said) == 2 else 0) | said[-1])

    def set(self, place: int, value: int) -> Line:
        return self.line(0xE000 | place << 5 | value)

    def encoded(self, line: Line, opt: bool) -> int:
        """The word of a line."""
        if line.target is not None and line.target not in self.labels:
            raise PIOASMError(f"unknown label {line.target}")
        word, room = line.word | (self.labels[line.target] if line.target is not None else 0), 5 - self.sideset_count
        if line.pause >> room:
            raise PIOASMError("delay too large")
        if line.value is not None:
            word |= opt << 12 | line.value << 8 + room
        return word | line.pause << 8

    def program(self) -> list[Any]:
        """The list that `_rp2` takes."""
        given, opt = self.words.get, False
        if self.sideset_count and any(line.value is None for line in self.lines):
            opt, self.sideset_count = True, self.sideset_count + 1
        top = self.top if self.top >= 0 else len(self.lines) - 1
        execution = opt << 30 | bool(given("side_pindir")) << 29 | top << 12 | self.bottom << 7
        shifts = given("fifo_join", 0) << 30 | (given("pull_thresh", 32) & 31) << 25 | (given("push_thresh", 32) & 31) << 20
        shifts |= given("out_shiftdir", 0) << 19 | given("in_shiftdir", 0) << 18
        shifts |= bool(given("autopull")) << 17 | bool(given("autopush")) << 16
        words = array("H", [self.encoded(line, opt) for line in self.lines])
        return [words, -1, -1, execution, shifts, given("out_init"), given("set_init"), given("sideset_init")]


INSTRUCTIONS = "label wrap_target wrap word nop jmp wait in_ out push pull mov irq set".split()


def stall(said: tuple[int, ...]) -> int:
    """The bits of PUSH and PULL: with a block where nothing says otherwise."""
    value = sum(said)
    return value & IF | BLOCK * (not value & NOBLOCK)


def asm_pio(**words: Any) -> Callable[[Any], list[Any]]:
    """The decorator of a program."""
    emit = PIOASMEmit(**words)

    def made(function: Any) -> list[Any]:
        types.FunctionType(function.__code__, function.__globals__ | emit.names())()
        return emit.program()

    return made


def asm_pio_encode(text: str, count: int, opt: bool = False) -> int:
    """The word of one instruction."""
    emit = PIOASMEmit()
    emit.sideset_count = count + opt
    exec(text, emit.names())
    if len(emit.lines) != 1:
        raise PIOASMError("expecting exactly 1 instruction")
    return emit.encoded(emit.lines[0], bool(opt))
