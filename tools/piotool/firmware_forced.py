"""A machine that doesn't run, and the instructions that the processor forces on it (RP2040 Datasheet, section 3.5.7).

They go by the rules of docs/SPECIFICATION.md, one tick each, with the refill at its end. A word that stalls stays pending, and is
tried again after each write that may end its stall. Its delay isn't kept: the processor is slower than any delay. What a word
takes from pins isn't known here, so it is noted as what can't be said.
"""

from copy import deepcopy
from dataclasses import dataclass, field
from typing import Callable

from piotool.firmware_map import AFTER_RESET, fields_of

WORD = 1 << 32
ONES = WORD - 1
JMP, WAIT, IN, OUT, PUSH_PULL, MOV, IRQ, SET = range(8)
PINS, X, Y, NULL, DIRECTIONS, PC, ISR, EXEC = range(8)


@dataclass
class Pins:
    """What a block drives, and its flags."""

    levels: int = 0
    directions: int = 0
    flags: int = 0

    def write(self, to_directions: bool, base: int, count: int, value: int) -> None:
        """Writes the bits of a value to the pins of a mapping."""
        mask = rotated_left((1 << count) - 1, base)
        bits = rotated_left(value % (1 << count), base)
        if to_directions:
            self.directions = self.directions & ~mask | bits
        else:
            self.levels = self.levels & ~mask | bits


@dataclass
class Machine:
    """The state of a machine that isn't enabled."""

    number: int
    registers: dict[str, int] = field(default_factory=lambda: dict(AFTER_RESET))
    pc: int = 0
    x: int = 0
    y: int = 0
    isr: int = 0
    osr: int = 0
    isr_count: int = 0
    osr_count: int = 32
    pending: int | None = None
    begun: bool = False
    tx: list[int] = field(default_factory=list)
    rx: list[int] = field(default_factory=list)
    unsaid: list[str] = field(default_factory=list)
    waiting: list[int] = field(default_factory=list)
    is_drained: bool = False
    lost: int = 0

    def copy(self) -> "Machine":
        """The state as it is now."""
        return deepcopy(self)

    @property
    def fields(self) -> dict[str, int | bool]:
        """The fields of its registers."""
        return fields_of(self.registers)

    def room(self, other: str, own: str) -> int:
        """The words that a FIFO holds: 8 where it has the other one's, none where the other one has its."""
        fields = self.fields
        return 0 if fields[other] else 8 if fields[own] else 4

    @property
    def tx_room(self) -> int:
        """The words that TX holds."""
        return self.room("join_rx", "join_tx")

    @property
    def rx_room(self) -> int:
        """The words that RX holds."""
        return self.room("join_tx", "join_rx")

    def restart(self) -> None:
        """SM_RESTART: shift counts, ISR, and what was pending. That the OSR then counts as empty is a reading of the datasheet."""
        self.isr = self.isr_count = 0
        self.osr_count, self.pending, self.begun = 32, None, False

    def flush(self) -> None:
        """Both FIFOs are empty."""
        self.tx, self.rx = [], []

    def force(self, word: int, pins: Pins) -> None:
        """A write of SMx_INSTR. It takes the place of a word that is pending."""
        self.pending, self.begun = word & 0xFFFF, False
        self.go_on(pins)

    def go_on(self, pins: Pins) -> None:
        """Ticks while a word is pending and a tick changes something that it may wait for."""
        for _ in range(1024):
            if self.pending is None:
                return
            before = (self.pending, self.begun, len(self.tx), self.osr_count, pins.flags)
            Tick(self, pins).run()
            if before == (self.pending, self.begun, len(self.tx), self.osr_count, pins.flags):
                return
        self.unsaid.append("words that are forced on it run each other without end")
        self.pending = None


class Tick:
    """One tick of a machine's pending word."""

    def __init__(self, machine: Machine, pins: Pins) -> None:
        assert machine.pending is not None
        self.machine, self.pins, self.word = machine, pins, machine.pending
        self.fields = machine.fields
        self.kind, self.high, self.low = self.word >> 13, self.word >> 5 & 7, self.word & 31
        self.next: int | None = None
        self.writes: list[tuple[bool, int, int, int]] = []
        self.had_word = bool(machine.tx)

    def run(self) -> None:
        """The tick: effects, side-set over them, and the refill."""
        machine = self.machine
        effects: list[Callable[[], bool]] = [
            self.jmp,
            self.wait,
            self.shift_in,
            self.shift_out,
            self.push_or_pull,
            self.mov,
            self.irq,
            self.set,
        ]
        first, had = not machine.begun, list(machine.tx)
        stalls = effects[self.kind]()
        if first:
            self.side_set()
        for write in self.writes:
            self.pins.write(*write)
        machine.begun = stalls
        if not stalls:
            machine.pending = self.next
        threshold = self.fields["pull_threshold"]
        if self.fields["autopull"] and machine.osr_count >= threshold and had and machine.tx == had:
            machine.osr, machine.osr_count = machine.tx.pop(0), 0

    def side_set(self) -> None:
        """Side-set comes after the word's own writes, so that it wins."""
        opt, count = self.fields["side_opt"], int(self.fields["side_count"])
        if count == 0 or opt and not self.word >> 12 & 1:
            return
        bits = count - int(opt)
        value = self.word >> 8 + 5 - count & (1 << bits) - 1
        self.writes.append((bool(self.fields["side_pindirs"]), int(self.fields["side_base"]), bits, value))

    def cannot_say(self, what: str) -> None:
        """Notes that the word needs what the firmware doesn't say."""
        self.machine.unsaid.append(f"the word {self.word:#06x} that is forced on it before the start {what}")

    def flag(self) -> int:
        """The bit of the flag that an index means."""
        number = self.low & 4 | self.low + self.machine.number & 3 if self.low & 16 else self.low & 7
        return 1 << number

    def jmp(self) -> bool:
        machine = self.machine
        if self.high == 6:
            self.cannot_say("jumps by a pin")
        holds = (
            True,
            machine.x == 0,
            machine.x != 0,
            machine.y == 0,
            machine.y != 0,
            machine.x != machine.y,
            False,
            machine.osr_count < int(self.fields["pull_threshold"]),
        )[self.high]
        if self.high == 2:
            machine.x = (machine.x - 1) % WORD
        elif self.high == 4:
            machine.y = (machine.y - 1) % WORD
        if holds:
            machine.pc = self.low
        return False

    def wait(self) -> bool:
        polarity, source = self.word >> 7 & 1, self.word >> 5 & 3
        if source < 2:
            self.cannot_say("waits for a pin")
        if source != 2:
            return False
        if bool(self.pins.flags & self.flag()) != bool(polarity):
            return True
        if polarity:
            self.pins.flags &= ~self.flag()
        return False

    def source(self, place: int) -> int:
        """What IN and MOV both read."""
        machine = self.machine
        if place == PINS:
            self.cannot_say("reads pins")
        return {PINS: 0, X: machine.x, Y: machine.y, NULL: 0, 6: machine.isr, 7: machine.osr}[place]

    def shift_in(self) -> bool:
        machine, count = self.machine, self.low or 32
        if self.high in (4, 5):
            return False
        if not machine.begun:
            bits = self.source(self.high) % (1 << count)
            if self.fields["in_right"]:
                machine.isr = machine.isr >> count | bits << 32 - count
            else:
                machine.isr = (machine.isr << count | bits) & ONES
            machine.isr_count = min(32, machine.isr_count + count)
        if self.fields["autopush"] and machine.isr_count >= int(self.fields["push_threshold"]):
            return self.give(True)
        return False

    def shift_out(self) -> bool:
        machine, count = self.machine, self.low or 32
        if self.fields["autopull"] and machine.osr_count >= int(self.fields["pull_threshold"]):
            return True
        if self.fields["out_right"]:
            value, machine.osr = machine.osr % (1 << count), machine.osr >> count
        else:
            value, machine.osr = machine.osr >> 32 - count, machine.osr << count & ONES
        machine.osr_count = min(32, machine.osr_count + count)
        if self.high == ISR:
            machine.isr, machine.isr_count = value, count
        elif self.high == EXEC:
            self.next = value & 0xFFFF
        else:
            self.put(self.high, value)
        return False

    def put(self, destination: int, value: int) -> None:
        """What OUT, MOV and SET have in common."""
        if destination in (PINS, DIRECTIONS):
            base, count = int(self.fields["out_base"]), int(self.fields["out_count"])
            self.writes.append((destination == DIRECTIONS, base, count, value))
        elif destination == X:
            self.machine.x = value
        elif destination == Y:
            self.machine.y = value
        elif destination == PC:
            self.machine.pc = value % 32

    def give(self, blocks: bool) -> bool:
        """Pushes the ISR, or stalls where RX is full."""
        machine = self.machine
        if len(machine.rx) < machine.rx_room:
            machine.rx.append(machine.isr)
        elif blocks:
            return True
        machine.isr = machine.isr_count = 0
        return False

    def push_or_pull(self) -> bool:
        machine, fields = self.machine, self.fields
        only_if, blocks = self.word >> 6 & 1, bool(self.word >> 5 & 1)
        if self.low:
            return False
        if not self.word >> 7 & 1:
            return not (only_if and machine.isr_count < int(fields["push_threshold"])) and self.give(blocks)
        if only_if and machine.osr_count < int(fields["pull_threshold"]) or fields["autopull"] and machine.osr_count == 0:
            return False
        if not machine.tx and blocks:
            return True
        machine.osr, machine.osr_count = machine.tx.pop(0) if machine.tx else machine.x, 0
        return False

    def mov(self) -> bool:
        machine, operation, place = self.machine, self.word >> 3 & 3, self.word & 7
        if self.high == 3 or operation == 3 or place == 4:
            return False
        if place == 5:
            level = len(machine.rx if self.fields["status_rx"] else machine.tx)
            value = ONES if level < int(self.fields["status_n"]) else 0
        else:
            value = self.source(place)
        value = (value, value ^ ONES, int(f"{value:032b}"[::-1], 2))[operation]
        if self.high == 4:
            self.next = value & 0xFFFF
        elif self.high == 6:
            machine.isr, machine.isr_count = value, 0
        elif self.high == 7:
            machine.osr, machine.osr_count = value, 0
        else:
            self.put(self.high, value)
        return False

    def irq(self) -> bool:
        clears, waits, pins = self.word >> 6 & 1, bool(self.word >> 5 & 1), self.pins
        if self.word >> 7 & 1:
            return False
        if clears:
            pins.flags &= ~self.flag()
        elif not waits or not self.machine.begun:
            pins.flags |= self.flag()
            return waits
        else:
            return bool(pins.flags & self.flag())
        return False

    def set(self) -> bool:
        if self.high in (PINS, DIRECTIONS):
            base, count = int(self.fields["set_base"]), int(self.fields["set_count"])
            self.writes.append((self.high == DIRECTIONS, base, count, self.low))
        elif self.high in (X, Y):
            self.put(self.high, self.low)
        return False


def rotated_left(word: int, places: int) -> int:
    """A word of 32 bits, rotated."""
    return (word << places | word >> 32 - places) & ONES
