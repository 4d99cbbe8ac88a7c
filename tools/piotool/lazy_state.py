"""The state of a search: machines whose registers may have free bits, FIFOs as intervals of levels, and the ages of the open span."""

from typing import Any, Optional

from piotool.asked import Asked, AskedMachine
from piotool.lazy_values import Clause, Value

BIG = 1 << 20  # what counts down from here on won't come to 0 in a search


class MachineState:
    """A machine at the start of a clock. `tick` is the number of its next tick; TX and RX have a least and a greatest level."""

    __slots__ = (
        "number", "pc", "x", "y", "isr", "osr", "in_count", "out_count", "delay", "pending", "begun", "tick",
        "tx_low", "tx_high", "rx_low", "rx_high", "taken", "pushed",
    )  # fmt: skip

    def __init__(self, machine: AskedMachine) -> None:
        setup = machine.setup
        self.number, self.pc = machine.number, setup["start"]
        self.x: Value = setup["x"]
        self.y: Value = setup["y"]
        self.isr: Value = setup["isr"]
        self.osr: Value = setup["osr"]
        self.in_count, self.out_count, self.delay, self.tick = setup["isr_count"], setup["osr_count"], 0, 0
        self.pending: Optional[int] = setup["pending"]
        self.begun = False
        self.tx_low = self.tx_high = self.rx_low = self.rx_high = self.taken = self.pushed = 0

    def copy(self) -> "MachineState":
        """The same, to be changed."""
        new = object.__new__(MachineState)
        new.number, new.pc, new.x, new.y, new.isr, new.osr = self.number, self.pc, self.x, self.y, self.isr, self.osr
        new.in_count, new.out_count, new.delay, new.pending = self.in_count, self.out_count, self.delay, self.pending
        new.begun, new.tick, new.taken, new.pushed = self.begun, self.tick, self.taken, self.pushed
        new.tx_low, new.tx_high, new.rx_low, new.rx_high = self.tx_low, self.tx_high, self.rx_low, self.rx_high
        return new


class State:
    """A block at the start of a clock, with what is open: for the newest and the oldest from-edge its clock and the ticks before it."""

    __slots__ = ("clock", "machines", "flags", "now", "before", "earlier", "clauses", "newest", "oldest", "counted", "context", "free")

    def __init__(self, asked: Asked, context: Any) -> None:
        pins = asked.pins
        levels = tuple(pins["level"] >> pin & 1 for pin in asked.kept)
        directions = tuple(pins["out"] >> pin & 1 for pin in asked.kept)
        self.clock, self.flags, self.counted, self.free = 0, 0, 0, 1
        self.machines = [MachineState(it) for it in asked.machines]
        for it, machine in zip(asked.machines, self.machines):
            machine.tx_high = it.tx_room if asked.held else 0
        # Levels and directions at the start of this clock, of the one before, and of the one before that.
        self.now = self.before = self.earlier = (levels, directions)
        self.clauses: tuple[Clause, ...] = ()
        self.newest: Optional[tuple[int, int]] = None
        self.oldest: Optional[tuple[int, int]] = None
        self.context = context

    def copy(self) -> "State":
        """The same, to be changed."""
        new = object.__new__(State)
        new.clock, new.flags, new.counted, new.free = self.clock, self.flags, self.counted, self.free
        new.machines = [it.copy() for it in self.machines]
        new.now, new.before, new.earlier, new.clauses = self.now, self.before, self.earlier, self.clauses
        new.newest, new.oldest, new.context = self.newest, self.oldest, self.context
        return new

    def ages(self) -> Optional[tuple[int, int]]:
        """The ticks of the newest and of the oldest open from-edge, or none."""
        if self.newest is None or self.oldest is None:
            return None
        return self.counted - self.newest[1], self.counted - self.oldest[1]


class Keys:
    """The keys by which states are compared: free bits are renamed by their first occurrence, and what nobody looks into is left out."""

    def __init__(self, asked: Asked) -> None:
        self.asked = asked

    def of(self, state: State, has_ages: bool = True) -> tuple:
        """The key of a state."""
        names: dict[int, int] = {}
        parts: list[Any] = [min(state.clock, 2), state.flags, state.context]
        for asked, machine in zip(self.asked.machines, state.machines):
            parts.append(self.of_machine(state, asked, machine, names))
        parts.append(renamed(state.now[0], names))
        parts.append(state.now[1])
        if self.asked.looks_back:
            parts += [renamed(it[0], names) for it in (state.before, state.earlier)] + [state.before[1], state.earlier[1]]
        live = [it for it in state.clauses if all(bit >> 1 in names for bit in it)]
        parts.append(frozenset(frozenset(2 * names[bit >> 1] + (bit & 1) for bit in clause) for clause in live))
        if has_ages:
            parts.append(state.ages())
            if self.asked.in_clocks and state.newest and state.oldest:
                parts.append((state.clock - state.newest[0], state.clock - state.oldest[0]))
        else:
            parts.append(state.newest is None)
        return tuple(parts)

    def of_machine(self, state: State, asked: AskedMachine, machine: MachineState, names: dict[int, int]) -> tuple:
        """A machine's part of a key."""
        period, tick = asked.period, machine.tick
        values = [
            known(machine.x, asked.only_counts_x) if asked.reads_x else None,
            known(machine.y, asked.only_counts_y) if asked.reads_y else None,
            machine.isr if asked.reads_isr else None,
            machine.osr if asked.reads_osr else None,
        ]
        return (
            machine.pc,
            *(renamed(it, names) if isinstance(it, tuple) else it for it in values),
            machine.in_count if asked.counts_in else None,
            machine.out_count if asked.counts_out else None,
            machine.delay,
            machine.pending,
            machine.begun,
            tick * period & 255,
            (tick * period >> 8) - state.clock,
            (machine.tx_low, machine.tx_high) if asked.asks_tx else None,
            (machine.rx_low, machine.rx_high) if asked.asks_rx else None,
        )


def known(value: Value, only_counts: bool) -> Any:
    """A register's value; one value for all that only count down and are great."""
    return "big" if only_counts and isinstance(value, int) and value >= BIG else value


def renamed(bits: tuple[int, ...], names: dict[int, int]) -> tuple[int, ...]:
    """The references with their free bits renamed by their first occurrence."""
    return tuple(it if it < 2 else 2 * names.setdefault(it >> 1, len(names) + 1) + (it & 1) for it in bits)
