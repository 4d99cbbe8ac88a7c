"""A block of four state machines, clock by clock, from the written rules (docs/SPECIFICATION.md, "The block").

It shares no code and no form with the crates: pads are looked up in their whole history, and the lines of a stimulus are
looked up by their clock.
"""

from bisect import bisect_right
from dataclasses import dataclass
from typing import Any, Iterator, Optional

from piotool.machine_model import RX_UNDER, TX_OVER, Intent, Machine, Setup, period_of, with_pins

# A line of a stimulus: its clock, its word, its numbers.
Line = tuple[int, str, list[int]]

@dataclass(frozen=True)
class Ticks:
    """Ticks of a machine in a row of clocks: how many, the address where they are late, and the clock of the restart before."""

    first: int
    last: int
    count: int
    address: Optional[int]
    restarted: int


class TickLog:
    """The ticks of a machine so far, in order."""

    def __init__(self, setup: Setup) -> None:
        self.period = period_of(setup)
        self.rows: list[Ticks] = []
        self.lasts: list[int] = []

    def add(self, first: int, last: int, count: int, address: Optional[int], restarted: int) -> None:
        """Adds ticks after those that are known."""
        if count:
            self.rows.append(Ticks(first, last, count, address, restarted))
            self.lasts.append(last)

    def ticks_before(self, clock: int, restarted: int) -> int:
        """How many ticks come before a clock, since a restart."""
        return max(0, -(-256 * (clock - restarted) // self.period))

    def within(self, begin: int, last: int) -> Iterator[Ticks]:
        """The ticks after a clock and up to another one."""
        place = bisect_right(self.lasts, begin)
        while place < len(self.rows) and self.rows[place].first <= last:
            row = self.rows[place]
            place += 1
            if row.first > begin and row.last <= last:
                yield row
                continue
            first, end = max(row.first, begin + 1), min(row.last, last)
            count = self.ticks_before(end + 1, row.restarted) - self.ticks_before(first, row.restarted)
            if count:
                yield Ticks(first, end, count, row.address, row.restarted)


class System:
    """The lines of a stimulus and its transfers. A line is its clock, its word and its numbers."""

    def __init__(self, lines: list[Line]) -> None:
        self.lines: dict[int, list[tuple[str, list[int]]]] = {}
        for line in lines:
            self.lines.setdefault(line[0], []).append(line[1:])
        self.feeds: dict[int, dict[str, Any]] = {}
        self.drains: dict[int, dict[str, int]] = {}

    def accesses(self, clock: int, machines: dict[int, Machine]) -> tuple[dict[int, int], set[int]]:
        """The words that are written to each TX and the RXs that are read, by the FIFOs at the clock's start."""
        writes: dict[int, int] = {}
        reads: set[int] = set()
        for word, numbers in self.lines.get(clock, []):
            number = numbers[0]
            if word == "tx":
                writes[number] = numbers[1]
            elif word == "rx":
                reads.add(number)
            elif word == "feed":
                self.feeds[number] = {"words": list(numbers[2:]), "due": clock, "every": numbers[1]}
            elif word == "drain":
                self.drains[number] = {"due": clock, "every": numbers[1]}
        for number, machine in machines.items():
            feed, drain = self.feeds.get(number), self.drains.get(number)
            has_room = len(machine.tx) < machine.tx_room
            if feed and feed["words"] and clock >= feed["due"] and has_room and number not in writes:
                writes[number] = feed["words"].pop(0)
                feed["due"] = clock + feed["every"]
            if drain and clock >= drain["due"] and machine.rx and number not in reads:
                reads.add(number)
                drain["due"] = clock + drain["every"]
        return writes, reads


class Block:
    """A block that is stepped from given pads. Setups are by machine number; pins has high, level, out and bypass as words.

    `ticks` has each machine's ticks so far. `moved` is the last clock in which more happened than delay,
    waits that go on, and turns of a counted loop of one instruction.
    """

    def __init__(self, memory: list[int], setups: dict[int, Setup], pins: dict[str, int], system: System) -> None:
        self.memory, self.system, self.bypass = memory, system, pins["bypass"]
        self.machines = {number: Machine(setup) for number, setup in sorted(setups.items())}
        self.levels, self.directions, self.outside, self.flags = pins["level"], pins["out"], pins["high"], 0
        self.ticks = {number: TickLog(machine.setup) for number, machine in self.machines.items()}
        self.moved = 0

    def begin(self, clock: int) -> None:
        """What the clock's lines do before the machines act."""
        for word, numbers in self.system.lines.get(clock, []):
            self.moved = clock
            machine = self.machines.get(numbers[0])
            if word == "pin":
                self.outside = with_pins(self.outside, {numbers[0]: numbers[1]})
            elif word in ("enable", "disable") and machine:
                machine.enabled = word == "enable"
            elif word == "restart" and machine:
                machine.restarted = clock

    def step(self, clock: int, before: int, now: int) -> list[int]:
        """The clock's machines, by its pads and those of two clocks before; the values after it."""
        seen = before & ~self.bypass | now & self.bypass
        writes, reads = self.system.accesses(clock, self.machines)
        self.moved = clock if writes or reads else self.moved
        intents = {}
        for number, machine in self.machines.items():
            intents[number] = Intent()
            if machine.has_tick(clock):
                is_late, has_delay = machine.begun, machine.delay > 0
                self.ticks[number].add(clock, clock, 1, machine.pc if is_late else None, machine.restarted)
                intents[number] = machine.tick(number, seen, self.flags, self.memory)
                rests = has_delay or is_late and machine.begun or machine.has_turned
                self.moved = clock if intents[number].takes or not rests else self.moved
        before = self.levels, self.directions
        for intent in intents.values():
            for write in intent.levels:
                self.levels = with_pins(self.levels, write)
            for write in intent.directions:
                self.directions = with_pins(self.directions, write)
        self.moved = clock if before != (self.levels, self.directions) else self.moved
        for intent in intents.values():
            self.flags &= ~intent.lowers
        for intent in intents.values():
            self.flags |= intent.raises
        for number, machine in self.machines.items():
            settle(machine, intents[number], writes.get(number), number in reads)
        return sample(self.levels, self.directions, self.flags, self.machines)


def samples(
    memory: list[int],
    setups: dict[int, Setup],
    pins: dict[str, int],
    lines: list[Line],
    clocks: int,
    system: Optional[System] = None,
) -> Iterator[list[int]]:
    """The 88 values after each clock."""
    block = Block(memory, setups, pins, system or System(lines))
    for shown in together([block], 0, clocks):
        yield shown[0]


def together(blocks: list[Block], own: int, clocks: int) -> Iterator[list[list[int]]]:
    """The values of each block after each clock. The second, where there is one, owns these pins; the outside is the first one's."""
    first, owner = blocks[0], blocks[-1]

    def pads() -> int:
        levels = first.levels & ~own | owner.levels & own
        directions = first.directions & ~own | owner.directions & own
        return levels & directions | first.outside & ~directions

    history = {-2: pads(), -1: pads()}
    for clock in range(clocks):
        for block in blocks:
            block.begin(clock)
        before, history[clock] = history.pop(clock - 2), pads()
        yield [block.step(clock, before, history[clock]) for block in blocks]


def settle(machine: Machine, intent: Intent, written: Optional[int], is_read: bool) -> None:
    """The end of a clock at a machine's FIFOs, by their levels at its start."""
    machine.sticky |= intent.sticky
    tx_is_full, rx_is_empty = len(machine.tx) >= machine.tx_room, not machine.rx
    if intent.takes:
        machine.tx = machine.tx[1:]
    if written is not None and tx_is_full:
        machine.sticky |= TX_OVER
    elif written is not None:
        machine.tx = machine.tx + [written]
    if is_read and rx_is_empty:
        machine.sticky |= RX_UNDER
    elif is_read:
        machine.got, machine.rx = machine.rx[0], machine.rx[1:]
    if intent.gives is not None:
        machine.rx = machine.rx + [intent.gives]


def sample(levels: int, directions: int, flags: int, machines: dict[int, Machine]) -> list[int]:
    """The 88 values of a state."""
    values = [levels >> pin & 1 for pin in range(32)] + [directions >> pin & 1 for pin in range(32)]
    values += [flags >> flag & 1 for flag in range(8)]
    shown = [lambda m: len(m.tx), lambda m: len(m.rx), lambda m: m.got, lambda m: m.sticky]
    return values + [show(machines[n]) if n in machines else 0 for show in shown for n in range(4)]
