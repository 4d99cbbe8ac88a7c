"""A tick of a machine whose registers may have free bits, from the written rules (docs/SPECIFICATION.md, "The machine").

What it looks at and isn't chosen yet it asks of the clock that it is in (lazy_block.py), which chooses.
"""

from typing import Any, Optional

from piotool.asked import IN, IRQ, JMP, MOV, NULL, OUT, PC, PINDIRS, PINS, PUSH_PULL, SET, TO_EXEC, WAIT, X, Y, AskedMachine, Word
from piotool.lazy_state import MachineState
from piotool.lazy_values import Value, bits_of, bits_of_number, either, inverted, low_bits, moved_down, moved_up, turned_round, value_of
from piotool.machine_model import ALL_ONES

ISR, OSR, EXEC = 6, 7, 7


class Tick:
    """One tick: what it writes and changes outside its machine's registers."""

    def __init__(self, clock: Any, asked: AskedMachine, machine: MachineState) -> None:
        self.clock, self.asked, self.machine, self.setup = clock, asked, machine, asked.setup
        self.levels: list[tuple[int, int]] = []
        self.directions: list[tuple[int, int]] = []
        self.lowers = self.raises = 0
        self.takes = self.gives = self.finishes = self.is_late = False
        self.address, self.word = machine.pc, None
        self.jump: Optional[int] = None
        self.next_word: Optional[int] = None
        self.run()

    def run(self) -> None:
        """Does the tick."""
        machine = self.machine
        if machine.delay:
            machine.delay -= 1
            if machine.delay == 0:
                self.refill()
            return
        self.is_late = machine.begun
        is_pending = machine.pending is not None
        word = self.word = self.asked.read(machine.pending) if machine.pending is not None else self.asked.words[machine.pc]
        stalls = not word.is_nothing and DOES[word.kind](self, word) is True
        if word.side is not None and not machine.begun:
            (self.directions if self.setup["side_pindirs"] else self.levels).extend(word.side)
        machine.begun = stalls
        if not stalls:
            self.finish(word, is_pending)
        self.refill()

    def finish(self, word: Word, is_pending: bool) -> None:
        """The end of an instruction."""
        machine, setup = self.machine, self.setup
        self.finishes = True
        if self.jump is not None:
            machine.pc = self.jump
        elif not is_pending:
            machine.pc = setup["wrap_bottom"] if machine.pc == setup["wrap_top"] else (machine.pc + 1) % 32
        machine.pending = self.next_word
        machine.delay = word.delay if self.next_word is None else 0

    def refill(self) -> None:
        """Autopull. Within a delay it is asked in the last tick alone: the machine looks at its OSR after it."""
        machine, setup = self.machine, self.setup
        if setup["autopull"] and machine.out_count >= setup["pull_threshold"] and not machine.delay and not self.takes:
            if not self.clock.tx_is_empty(self.asked, machine):
                self.take()

    def take(self) -> None:
        """Moves a word of TX to the OSR."""
        self.machine.osr = self.clock.taken_word(self.asked, self.machine)
        self.machine.out_count = 0
        self.takes = True

    # Each of these does an instruction, and is true where it stalls.

    def jmp(self, word: Word) -> Optional[bool]:
        """JMP never stalls."""
        if self.is_taken(word.high):
            self.jump = word.low
        return None

    def is_taken(self, condition: int) -> bool:
        """Whether the condition holds; what it counts is counted."""
        machine, clock = self.machine, self.clock
        if condition in (2, 4):
            return self.count_down("x" if condition == 2 else "y")
        if condition == 5:
            return not clock.are_equal(machine, "x", "y")
        if condition == 6:
            return bool(clock.bit(clock.seen(self.setup["jmp_pin"])))
        if condition == 7:
            return machine.out_count < self.setup["pull_threshold"]
        return condition == 0 or clock.is_number(machine, "x" if condition == 1 else "y", 0)

    def count_down(self, name: str) -> bool:
        """Counts a register down; whether it was not 0."""
        value = self.clock.counted_value(self.machine, name)
        setattr(self.machine, name, (value - 1) & ALL_ONES)
        return value != 0

    def wait(self, word: Word) -> Optional[bool]:
        """WAIT stalls until its source has the polarity."""
        source, clock = word.high & 3, self.clock
        if source == 2:
            flag = self.flag(word.low)
            if clock.flags >> flag & 1 != word.bit7:
                return True
            self.lowers |= word.bit7 << flag
            return None
        pin = word.low if source == 0 else (self.setup["in_base"] + word.low) % 32
        return clock.bit(clock.seen(pin)) != word.bit7

    def flag(self, low: int) -> int:
        """The number of the flag that an index means."""
        return low & 4 | (low + self.asked.number) & 3 if low & 16 else low & 7

    def shift_in(self, word: Word) -> Optional[bool]:
        """IN shifts in its first tick, and with autopush it waits for room."""
        machine, setup, count = self.machine, self.setup, word.low or 32
        if not machine.begun:
            if self.asked.reads_isr:
                bits = low_bits(self.source(word.high), count)
                if setup["in_right"]:
                    machine.isr = either(moved_down(machine.isr, count), moved_up(bits, 32 - count))
                else:
                    machine.isr = either(moved_up(machine.isr, count), bits)
            machine.in_count = min(32, machine.in_count + count)
        if setup["autopush"] and machine.in_count >= setup["push_threshold"]:
            return self.give(True)
        return None

    def source(self, number: int) -> Value:
        """What IN and MOV read."""
        machine = self.machine
        if number == PINS:
            base = self.setup["in_base"]
            return value_of(tuple(self.clock.seen((base + place) % 32) for place in range(32)))
        return {X: machine.x, Y: machine.y, NULL: 0, ISR: machine.isr, OSR: machine.osr}[number]

    def shift_out(self, word: Word) -> Optional[bool]:
        """OUT, with autopull, waits until the OSR was refilled."""
        machine, setup, count = self.machine, self.setup, word.low or 32
        if setup["autopull"] and machine.out_count >= setup["pull_threshold"]:
            return True
        if setup["out_right"]:
            value, machine.osr = low_bits(machine.osr, count), moved_down(machine.osr, count)
        else:
            value, machine.osr = moved_down(machine.osr, 32 - count), moved_up(machine.osr, count)
        machine.out_count = min(32, machine.out_count + count)
        if word.high == ISR:
            machine.isr, machine.in_count = value, count
        elif word.high == PINDIRS:
            self.directions += zip(self.asked.out_pins, bits_of(value))
        elif word.high == EXEC:
            self.next_word = self.clock.chosen_word(self.asked, self.machine, "osr", value)
        else:
            self.put(word.high, value)
        return None

    def push_or_pull(self, word: Word) -> Optional[bool]:
        """PUSH and PULL."""
        machine, setup = self.machine, self.setup
        is_conditional, blocks = word.high & 2, bool(word.high & 1)
        if not word.bit7:
            if is_conditional and machine.in_count < setup["push_threshold"]:
                return None
            return self.give(blocks)
        if is_conditional and machine.out_count < setup["pull_threshold"] or setup["autopull"] and machine.out_count == 0:
            return None
        if not self.clock.tx_is_empty(self.asked, machine):
            self.take()
            return None
        if blocks:
            return True
        machine.osr, machine.out_count = machine.x if self.asked.reads_osr else 0, 0
        return None

    def give(self, blocks: bool) -> Optional[bool]:
        """Pushes the ISR; a full RX stalls it, or loses the word."""
        machine = self.machine
        if self.clock.rx_is_full(self.asked, machine):
            if blocks:
                return True
        else:
            self.gives = True
        machine.isr, machine.in_count = 0, 0
        return None

    def mov(self, word: Word) -> Optional[bool]:
        """MOV never stalls."""
        machine, operation = self.machine, word.word >> 3 & 3
        if word.word & 7 == 5:
            value: Value = ALL_ONES if self.clock.status(self.asked, machine) else 0
        else:
            value = self.source(word.word & 7)
        value = inverted(value) if operation == 1 else turned_round(value) if operation == 2 else value
        if word.high == ISR:
            machine.isr, machine.in_count = value, 0
        elif word.high == OSR:
            machine.osr, machine.out_count = value, 0
        elif word.high == TO_EXEC:
            self.next_word = self.clock.chosen_word(self.asked, self.machine, None, value)
        else:
            self.put(word.high, value)
        return None

    def put(self, destination: int, value: Value) -> None:
        """What OUT and MOV have in common."""
        if destination == PINS:
            self.levels += zip(self.asked.out_pins, bits_of(value))
        elif destination == X:
            self.machine.x = value
        elif destination == Y:
            self.machine.y = value
        elif destination == PC:
            self.jump = self.clock.chosen_number(low_bits(value, 5))

    def irq(self, word: Word) -> Optional[bool]:
        """IRQ raises its flag once, and waits until it is lowered, or lowers it."""
        flag, clears, waits = 1 << self.flag(word.low), word.high & 2, bool(word.high & 1)
        if clears:
            self.lowers |= flag
        elif not waits or not self.machine.begun:
            self.raises |= flag
            return waits
        else:
            return self.clock.flags & flag != 0
        return None

    def set(self, word: Word) -> Optional[bool]:
        """SET never stalls."""
        if word.high == X:
            self.machine.x = word.low
        elif word.high == Y:
            self.machine.y = word.low
        elif word.high in (PINS, PINDIRS):
            (self.levels if word.high == PINS else self.directions).extend(zip(self.asked.set_pins, bits_of_number(word.low)))
        return None


DOES = {
    JMP: Tick.jmp,
    WAIT: Tick.wait,
    IN: Tick.shift_in,
    OUT: Tick.shift_out,
    PUSH_PULL: Tick.push_or_pull,
    MOV: Tick.mov,
    IRQ: Tick.irq,
    SET: Tick.set,
}
