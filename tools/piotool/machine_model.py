"""A state machine, tick by tick, from the written rules (docs/SPECIFICATION.md, "The machine").

It shares no code and no form with the crates: FIFOs are lists, a divider's ticks are a formula, and a tick's writes are
dictionaries of pins. A setup has the keys of a configuration and the places of its program: start, wrap_bottom, wrap_top,
side_bits, side_opt, side_pindirs.
"""

from typing import Any, Optional

Setup = dict[str, Any]
Write = dict[int, int]

WORD = 2**32
ALL_ONES = WORD - 1
TX_OVER, RX_UNDER, TX_STALL, RX_STALL = 1, 2, 4, 8


def period_of(setup: Setup) -> int:
    """The period of a machine's ticks, in 256ths of a clock."""
    return 256 * (setup["divider"] or 65536) + setup["fraction"]


def rooms_of(setup: Setup) -> tuple[int, int]:
    """How many words TX and RX hold."""
    if setup["join_tx"]:
        return 8, 0
    return (0, 8) if setup["join_rx"] else (4, 4)


def rotated_right(word: int, places: int) -> int:
    """The 32 bits, each moved down so many places; those that fall out enter at the top."""
    return word >> places | word % 2**places << (32 - places)


def reversed_bits(word: int) -> int:
    """The 32 bits from the last to the first."""
    return int(f"{word:032b}"[::-1], 2)


def mapped(base: int, count: int, value: int) -> Write:
    """The pins of a mapping, each with its bit of a value."""
    return {(base + place) % 32: value >> place & 1 for place in range(count)}


def with_pins(pins: int, write: Write) -> int:
    """The 32 pins after a write."""
    for pin, bit in write.items():
        pins = pins & ~(1 << pin) | bit << pin
    return pins


class Intent:
    """What a tick does outside its machine's registers."""

    def __init__(self) -> None:
        self.levels: list[Write] = []
        self.directions: list[Write] = []
        self.lowers = self.raises = self.sticky = 0
        self.takes = False
        self.gives: Optional[int] = None


class Machine:
    """A machine with its FIFOs. The setup has the keys of a configuration, and the places of its program."""

    def __init__(self, setup: Setup) -> None:
        self.setup = setup
        self.pc, self.x, self.y = setup["start"], setup["x"], setup["y"]
        self.isr, self.in_count = setup["isr"], setup["isr_count"]
        self.osr, self.out_count = setup["osr"], setup["osr_count"]
        self.pending: Optional[int] = setup["pending"]
        self.delay = self.sticky = self.got = self.restarted = 0
        self.begun, self.enabled = False, True
        self.watched: frozenset[int] = frozenset()  # addresses of instructions of which each end is looked at: none is leapt over
        self.has_turned = False  # whether the last instruction was a turn of a counted loop of one instruction
        self.tx: list[int] = []
        self.rx: list[int] = []
        self.tx_room, self.rx_room = rooms_of(setup)

    def has_tick(self, clock: int) -> bool:
        """Whether some k periods after the last restart fall into the clock."""
        period, passed = period_of(self.setup), clock - self.restarted
        k = -(-passed * 256 // period)
        return self.enabled and k * period // 256 == passed

    def refill(self, intent: Intent) -> None:
        """Autopull, by the FIFO at the clock's start."""
        if self.setup["autopull"] and self.out_count >= self.setup["pull_threshold"] and self.tx:
            self.osr, self.out_count, intent.takes = self.tx[0], 0, True

    def tick(self, number: int, seen: int, flags: int, memory: list[int]) -> Intent:
        """One tick, by the pins that the machine sees and the flags at the clock's start."""
        intent = Intent()
        if self.delay > 0:
            self.delay -= 1
        else:
            self.has_turned = False
            Instruction(self, number, seen, flags, memory).run(intent)
        self.refill(intent)
        return intent


class Instruction:
    """One tick of the current instruction of a machine."""

    def __init__(self, machine: Machine, number: int, seen: int, flags: int, memory: list[int]) -> None:
        self.machine, self.setup = machine, machine.setup
        self.number, self.seen, self.flags = number, seen, flags
        self.is_pending = machine.pending is not None
        self.word = machine.pending if self.is_pending else memory[machine.pc]
        self.jump: Optional[int] = None
        self.next_word: Optional[int] = None

    @property
    def high(self) -> int:
        """Bits 7 to 5 of the word."""
        return self.word >> 5 & 7

    @property
    def low(self) -> int:
        """Bits 4 to 0 of the word."""
        return self.word & 31

    def side_and_delay(self) -> tuple[Optional[int], int]:
        """The value of side-set, if there is any, and the ticks of the delay."""
        shared = self.word >> 8 & 31
        bits, opt = self.setup["side_bits"], self.setup["side_opt"]
        delay_bits = 5 - bits - opt
        value = shared >> delay_bits & 2**bits - 1
        is_there = shared >> 4 == 1 if opt else bits > 0
        return value if is_there else None, shared & 2**delay_bits - 1

    def flag(self) -> int:
        """The number of the flag that the index means."""
        if self.low & 16:
            return self.low & 4 | (self.low + self.number) & 3
        return self.low & 7

    def run(self, intent: Intent) -> None:
        """Does the tick."""
        machine, setup = self.machine, self.setup
        side, delay = self.side_and_delay()
        side_set = mapped(setup["side_base"], setup["side_bits"], side or 0)
        writes_side = side is not None and not machine.begun
        kinds = [
            self.jmp,
            self.wait,
            self.shift_in,
            self.shift_out,
            self.push_or_pull,
            self.mov,
            self.irq,
            self.set,
        ]
        stalls = kinds[self.word >> 13](intent) is True
        if writes_side:
            (intent.directions if setup["side_pindirs"] else intent.levels).append(side_set)
        machine.begun = stalls
        if stalls:
            return
        if self.jump is not None:
            machine.has_turned = self.word >> 13 == 0 and self.high in (2, 4) and self.jump == machine.pc and not self.is_pending
            machine.pc = self.jump
        elif not self.is_pending:
            machine.pc = setup["wrap_bottom"] if machine.pc == setup["wrap_top"] else (machine.pc + 1) % 32
        machine.pending = self.next_word
        machine.delay = delay if self.next_word is None else 0

    # Each of these does an instruction's effect, and is true where it stalls.

    def jmp(self, intent: Intent) -> Optional[bool]:
        """JMP never stalls."""
        machine = self.machine
        holds = [
            True,
            machine.x == 0,
            machine.x != 0,
            machine.y == 0,
            machine.y != 0,
            machine.x != machine.y,
            self.seen >> self.setup["jmp_pin"] & 1 == 1,
            machine.out_count < self.setup["pull_threshold"],
        ][self.high]
        if self.high == 2:
            machine.x = (machine.x - 1) % WORD
        if self.high == 4:
            machine.y = (machine.y - 1) % WORD
        if holds:
            self.jump = self.low

    def wait(self, intent: Intent) -> Optional[bool]:
        """WAIT stalls until its source has the polarity."""
        polarity, source = self.word >> 7 & 1, self.word >> 5 & 3
        if source == 3:
            return False
        pin = self.low if source == 0 else (self.setup["in_base"] + self.low) % 32
        bit = self.flags >> self.flag() & 1 if source == 2 else self.seen >> pin & 1
        if bit != polarity:
            return True
        if source == 2 and polarity:
            intent.lowers |= 1 << self.flag()

    def shift_in(self, intent: Intent) -> Optional[bool]:
        """IN shifts in its first tick, and with autopush it waits for room."""
        machine, setup, count = self.machine, self.setup, self.low or 32
        if self.high in (4, 5):
            return False
        if not machine.begun:
            pins = rotated_right(self.seen, setup["in_base"])
            source = [pins, machine.x, machine.y, 0, None, None, machine.isr, machine.osr][self.high]
            bits = source % 2**count
            if setup["in_right"]:
                machine.isr = machine.isr >> count | bits << (32 - count)
            else:
                machine.isr = (machine.isr << count | bits) % WORD
            machine.in_count = min(32, machine.in_count + count)
        if setup["autopush"] and machine.in_count >= setup["push_threshold"]:
            return self.give(intent, blocks=True)

    def shift_out(self, intent: Intent) -> Optional[bool]:
        """OUT, with autopull, waits until the OSR was refilled."""
        machine, setup, count = self.machine, self.setup, self.low or 32
        if setup["autopull"] and machine.out_count >= setup["pull_threshold"]:
            if not machine.tx:
                intent.sticky |= TX_STALL
            return True
        if setup["out_right"]:
            value, machine.osr = machine.osr % 2**count, machine.osr >> count
        else:
            value, machine.osr = machine.osr >> (32 - count), (machine.osr << count) % WORD
        machine.out_count = min(32, machine.out_count + count)
        if self.high == 6:
            machine.isr, machine.in_count = value, count
        elif self.high == 4:
            intent.directions.append(mapped(setup["out_base"], setup["out_count"], value))
        else:
            self.put({0: "pins", 1: "x", 2: "y", 3: "null", 5: "pc", 7: "exec"}[self.high], value, intent)

    def push_or_pull(self, intent: Intent) -> Optional[bool]:
        """PUSH and PULL."""
        machine, setup = self.machine, self.setup
        conditional, blocks = self.word >> 6 & 1, self.word >> 5 & 1 == 1
        if self.low:
            return False
        if not self.word >> 7 & 1:
            if conditional and machine.in_count < setup["push_threshold"]:
                return False
            return self.give(intent, blocks)
        if (
            conditional
            and machine.out_count < setup["pull_threshold"]
            or setup["autopull"]
            and machine.out_count == 0
        ):
            return False
        if not machine.tx and blocks:
            intent.sticky |= TX_STALL
            return True
        intent.takes = bool(machine.tx)
        machine.osr, machine.out_count = machine.tx[0] if machine.tx else machine.x, 0

    def give(self, intent: Intent, blocks: bool) -> Optional[bool]:
        """Pushes the ISR; a full RX stalls it, or loses the word."""
        machine = self.machine
        if len(machine.rx) >= machine.rx_room:
            intent.sticky |= RX_STALL
            if blocks:
                return True
        else:
            intent.gives = machine.isr
        machine.isr = machine.in_count = 0

    def mov(self, intent: Intent) -> Optional[bool]:
        """MOV never stalls."""
        machine, setup = self.machine, self.setup
        operation, source = self.word >> 3 & 3, self.word & 7
        if self.high == 3 or operation == 3 or source == 4:
            return False
        level = len(machine.rx if setup["status_rx"] else machine.tx)
        status = ALL_ONES if level < setup["status_n"] else 0
        pins = rotated_right(self.seen, setup["in_base"])
        value = [pins, machine.x, machine.y, 0, None, status, machine.isr, machine.osr][source]
        value = [value, value ^ ALL_ONES, reversed_bits(value)][operation]
        if self.high == 6:
            machine.isr, machine.in_count = value, 0
        elif self.high == 7:
            machine.osr, machine.out_count = value, 0
        else:
            self.put({0: "pins", 1: "x", 2: "y", 4: "exec", 5: "pc"}[self.high], value, intent)

    def put(self, destination: str, value: int, intent: Intent) -> None:
        """What OUT and MOV have in common."""
        if destination == "pins":
            intent.levels.append(mapped(self.setup["out_base"], self.setup["out_count"], value))
        elif destination == "x":
            self.machine.x = value
        elif destination == "y":
            self.machine.y = value
        elif destination == "pc":
            self.jump = value % 32
        elif destination == "exec":
            self.next_word = value % 2**16

    def irq(self, intent: Intent) -> Optional[bool]:
        """IRQ raises its flag once, and waits until it is lowered, or lowers it."""
        flag, clears, waits = 1 << self.flag(), self.word >> 6 & 1, self.word >> 5 & 1
        if self.word >> 7 & 1:
            return False
        if clears:
            intent.lowers |= flag
        elif not waits or not self.machine.begun:
            intent.raises |= flag
            return waits == 1
        else:
            return self.flags & flag != 0

    def set(self, intent: Intent) -> Optional[bool]:
        """SET never stalls."""
        write = mapped(self.setup["set_base"], self.setup["set_count"], self.low)
        if self.high == 0:
            intent.levels.append(write)
        elif self.high == 1:
            self.machine.x = self.low
        elif self.high == 2:
            self.machine.y = self.low
        elif self.high == 4:
            intent.directions.append(write)
