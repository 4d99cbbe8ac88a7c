"""A model of what the writes of a firmware leave in the chip: both PIO blocks, the pads, the pins of the processor.

Machines that are enabled aren't run. What a machine and its block are at the clock of its enabling is kept as a `Start`, one for
each enabling; what the system sends it later is kept with the start.
"""

from dataclasses import dataclass, field, replace

from piotool import firmware_map as at
from piotool.firmware_forced import Machine, Pins


@dataclass
class Start:
    """A machine at one of its enablings, the block and the pads then, and what the system does after it."""

    order: int
    machine: Machine
    pins: Pins
    memory: list[int | None]
    names: list[str | None]
    bypass: int
    pads: "Pads"
    later: list[int] = field(default_factory=list)
    is_fed: bool = False
    is_drained: bool = False
    is_over: bool = False
    left_out: int = 0
    changed: list[str] = field(default_factory=list)


@dataclass
class Pads:
    """The pins outside the blocks: what each is used for, its pulls, and what the processor drives."""

    controls: list[int] = field(default_factory=lambda: [at.CONTROL_AFTER_RESET] * at.PINS)
    pads: list[int] = field(default_factory=lambda: [at.PAD_AFTER_RESET] * at.PINS)
    levels: int = 0
    directions: int = 0
    are_known: bool = True

    def copy(self) -> "Pads":
        """They as they are now."""
        return replace(self, controls=list(self.controls), pads=list(self.pads))

    def function(self, pin: int) -> int:
        """The number of the function that a pin has."""
        return self.controls[pin] & 31

    def override(self, pin: int, name: str) -> int:
        """An override of a pin: 0 none, 1 inverted, 2 low, 3 high."""
        return self.controls[pin] >> at.OVERRIDES[name] & 3

    def outside(self, pin: int) -> int:
        """What the outside has at a pin that no block drives: what the processor drives, else the pull."""
        if self.function(pin) == at.FUNCTION_OF_SIO and self.directions >> pin & 1:
            return self.levels >> pin & 1
        return int(bool(self.pads[pin] & at.PULL_UP))


class Block:
    """One PIO block."""

    def __init__(self, index: int, chip: "Chip") -> None:
        self.index, self.chip = index, chip
        self.machines: list[Machine] = []
        self.starts: dict[int, list[Start]] = {number: [] for number in range(4)}
        self.reset()

    def reset(self) -> None:
        """The block after a reset; what was started before it is kept."""
        self.memory: list[int | None] = [None] * 32
        self.names: list[str | None] = [None] * 32
        self.machines = [Machine(number) for number in range(4)]
        self.pins, self.bypass, self.enabled = Pins(), 0, 0

    def is_enabled(self, number: int) -> bool:
        """Whether a machine is enabled now."""
        return bool(self.enabled >> number & 1)

    def start_of(self, number: int) -> Start | None:
        """The start that a machine is in, or none where it isn't enabled."""
        return self.starts[number][-1] if self.is_enabled(number) and self.starts[number] else None

    def go_on(self) -> None:
        """Tries the words again that wait on machines that aren't enabled."""
        for machine in self.machines:
            if not self.is_enabled(machine.number):
                machine.go_on(self.pins)
                while machine.waiting and len(machine.tx) < machine.tx_room:
                    machine.tx.append(machine.waiting.pop(0))
                    machine.go_on(self.pins)

    def control(self, value: int) -> None:
        """A write of CTRL: restarts come before enablings."""
        for machine in self.machines:
            if value >> 4 + machine.number & 1:
                machine.restart()
        risen, self.enabled = value & ~self.enabled & 15, value & 15
        if risen:
            self.chip.order += 1
        for number in range(4):
            if risen >> number & 1:
                self.starts[number].append(self.start_now(number))

    def start_now(self, number: int) -> Start:
        """A machine's start as all is now."""
        pins = Pins(self.pins.levels, self.pins.directions, self.pins.flags)
        machine, pads = self.machines[number].copy(), self.chip.pads.copy()
        return Start(self.chip.order, machine, pins, list(self.memory), list(self.names), self.bypass, pads)

    def write(self, offset: int, value: int) -> None:
        """A write of a register."""
        if offset == at.CTRL:
            self.control(value)
        elif at.TXF <= offset < at.RXF:
            self.send((offset - at.TXF) // 4, [value])
        elif offset == at.IRQ:
            self.pins.flags &= ~value & 0xFF
        elif offset == at.IRQ_FORCE:
            self.pins.flags |= value & 0xFF
        elif offset == at.BYPASS:
            self.bypass = value
        elif at.MEMORY <= offset < at.MACHINES:
            place = (offset - at.MEMORY) // 4
            self.memory[place], self.names[place] = value & 0xFFFF, self.chip.program
            self.look_for_changes(place, value & 0xFFFF)
        elif at.MACHINES <= offset < at.MACHINES + 4 * at.STRIDE:
            number, place = divmod(offset - at.MACHINES, at.STRIDE)
            self.write_machine(number, at.NAMES[place], value)
        self.go_on()

    def look_for_changes(self, place: int, word: int) -> None:
        """Notes for machines that run that the memory changed."""
        for number in range(4):
            start = self.start_of(number)
            if start and start.memory[place] is not None and start.memory[place] != word:
                start.changed.append(f"the word at {place} is written")

    def write_machine(self, number: int, register: str, value: int) -> None:
        """A write of one of a machine's registers."""
        machine, start = self.machines[number], self.start_of(number)
        if register == "INSTR":
            if start:
                start.changed.append(f"the word {value & 0xFFFF:#06x} is forced on it")
            else:
                machine.force(value, self.pins)
        elif register in machine.registers:
            before, machine.registers[register] = machine.registers[register], value
            if register == "SHIFTCTRL" and (before ^ value) >> 30:
                machine.flush()
            if start and before != value:
                start.changed.append(f"SM{number}_{register} is written")

    def send(self, number: int, words: list[int], is_paced: bool = False) -> None:
        """Words that the system writes to TX."""
        machine, start = self.machines[number], self.start_of(number)
        if start and start.is_over:
            start.left_out += len(words)
        elif start:
            start.later += words
            start.is_fed = start.is_fed or is_paced
        else:
            machine.waiting += words
            self.go_on()
            if not is_paced:
                machine.lost += len(machine.waiting)
                machine.waiting = []

    def drain(self, number: int) -> None:
        """A transfer that empties RX."""
        if start := self.start_of(number):
            start.is_drained = True
        else:
            self.machines[number].is_drained = True

    def read(self, offset: int) -> int:
        """What a register reads as. A machine that is enabled has taken what was sent to it, and has stalled for more."""
        numbers = range(4)
        if offset == at.CTRL:
            return self.enabled
        if offset == at.FSTAT:
            return self.status()
        if offset == at.FLEVEL:
            levels = ((0, 0) if self.is_enabled(it) else (len(m.tx), len(m.rx)) for it, m in enumerate(self.machines))
            return sum((tx | rx << 4) << 8 * place for place, (tx, rx) in enumerate(levels))
        if offset == at.FDEBUG:
            return sum(self.is_enabled(number) << 24 + number for number in numbers)
        if at.RXF <= offset < at.IRQ:
            machine = self.machines[(offset - at.RXF) // 4]
            return machine.rx.pop(0) if machine.rx and not self.is_enabled(machine.number) else 0
        plain = {at.IRQ: self.pins.flags, at.BYPASS: self.bypass, at.PAD_LEVELS: self.pins.levels}
        plain |= {at.PAD_DIRECTIONS: self.pins.directions, 0x44: 0x200404}
        if offset in plain:
            return plain[offset]
        if at.MACHINES <= offset < at.MACHINES + 4 * at.STRIDE:
            number, place = divmod(offset - at.MACHINES, at.STRIDE)
            return self.read_machine(self.machines[number], at.NAMES[place])
        return 0

    def read_machine(self, machine: Machine, register: str) -> int:
        """What one of a machine's registers reads as."""
        if register == "ADDR":
            return machine.pc
        if register == "INSTR":
            return machine.pending if machine.pending is not None else self.memory[machine.pc] or 0
        stalled = machine.pending is not None and register == "EXECCTRL"
        return machine.registers[register] | stalled << 31

    def status(self) -> int:
        """FSTAT: full and empty of both FIFOs."""
        word = 0
        for number, machine in enumerate(self.machines):
            runs = self.is_enabled(number)
            tx, rx = (0, 0) if runs else (len(machine.tx), len(machine.rx))
            word |= (rx >= machine.rx_room) << number | (rx == 0) << 8 + number
            word |= (tx >= machine.tx_room) << 16 + number | (tx == 0) << 24 + number
        return word


class Chip:
    """What a firmware writes to, by addresses."""

    def __init__(self) -> None:
        self.order, self.program, self.clock = 0, None, None  # type: int, str | None, int | None
        self.pads, self.memory = Pads(), {}  # type: Pads, dict[int, int]
        self.blocks = [Block(0, self), Block(1, self)]

    def block_at(self, address: int) -> tuple[Block, int] | None:
        """The block and the offset that an address means, without its alias."""
        for block, base in zip(self.blocks, at.PIO):
            if base <= address < base + 0x1000:
                return block, address - base
        return None

    def read(self, address: int) -> int:
        """What an address reads as."""
        base = plain(address)
        if found := self.block_at(base):
            return found[0].read(found[1])
        return self.plain_read(base)

    def plain_read(self, base: int) -> int:
        """What a register outside the blocks has."""
        if at.IO_BANK <= base < at.IO_BANK + 8 * at.PINS:
            return self.pads.controls[(base - at.IO_BANK) // 8] if base & 4 else 0
        if at.PADS_BANK + 4 <= base < at.PADS_BANK + 4 + 4 * at.PINS:
            return self.pads.pads[(base - at.PADS_BANK - 4) // 4]
        if base & ~0x3F == at.SIO:
            return {0x10: self.pads.levels, 0x20: self.pads.directions}.get(base & 0x3F, 0)
        return self.memory.get(base, 0)

    def write(self, address: int, value: int) -> None:
        """A write, by its alias."""
        base = plain(address)
        alias = address >> 12 & 3 if base != address else 0
        found = self.block_at(base)
        if alias:
            before = found[0].enabled if found and found[1] == at.CTRL else self.read(base)
            # These are cleared by ones and set by ones; an alias of SET is as the plain one there.
            if found and found[1] in (at.IRQ, at.IRQ_FORCE, at.FDEBUG):
                before = 0
            value = (value, before ^ value, before | value, before & ~value)[alias]
        if found:
            found[0].write(found[1], value)
        else:
            self.plain_write(base, value)

    def plain_write(self, base: int, value: int) -> None:
        """A write outside the blocks."""
        pads = self.pads
        if at.IO_BANK <= base < at.IO_BANK + 8 * at.PINS and base & 4:
            pads.controls[(base - at.IO_BANK) // 8] = value
        elif at.PADS_BANK + 4 <= base < at.PADS_BANK + 4 + 4 * at.PINS:
            pads.pads[(base - at.PADS_BANK - 4) // 4] = value
        elif base & ~0x3F == at.SIO:
            pads.levels = changed(pads.levels, base & 0x3F, at.SIO_LEVELS, value)
            pads.directions = changed(pads.directions, base & 0x3F, at.SIO_DIRECTIONS, value)
        else:
            if base == at.RESETS:
                for block, bit in zip(self.blocks, (10, 11)):
                    if value >> bit & 1:
                        block.reset()
            self.memory[base] = value

    def sleep(self) -> None:
        """Time passes: what is sent to machines that run comes later than the run's first words."""
        for block in self.blocks:
            for number in range(4):
                if start := block.start_of(number):
                    start.is_over = True


def plain(address: int) -> int:
    """An address without its alias; the processor's own block has none."""
    return address & ~at.ALIAS if 0x40000000 <= address < 0x60000000 else address


def changed(word: int, offset: int, first: int, value: int) -> int:
    """A word of the processor's pins after a write: its register, and those that set, clear and invert."""
    if not first <= offset < first + 16:
        return word
    return (value, word | value, word & ~value, word ^ value)[(offset - first) // 4]
