"""Clocks of a block whose inputs aren't chosen yet: where a machine looks at something free, a tape of choices says what it is.

The rules are those of docs/SPECIFICATION.md. A *stretch* runs a state up to the first clock in which something was chosen, or so
many clocks, and leaps over delays. It tells a log, where one is given, what the system has to do for that.
"""

from math import inf
from typing import Any, Optional

from piotool.asked import JMP, SET, Asked, AskedMachine
from piotool.lazy_choices import Choices, Dead
from piotool.lazy_machine import Tick
from piotool.lazy_state import MachineState, State
from piotool.lazy_values import Bits, Value, new_bits

MOST_CLOCKS = 64  # of a stretch


class Stretch(Choices):
    """Clocks of a state, by a tape of choices. `found` is the number of clocks of a run that breaks the span, or none."""

    def __init__(self, asked: Asked, guide: Any, state: State, tape: list[int], log: Optional[list[tuple]] = None) -> None:
        super().__init__(asked, state.copy(), tape, log)
        self.guide = guide
        self.found: Optional[int] = None
        self.flags = 0
        self.cache: dict[int, int] = {}
        self.turns: dict[int, tuple] = {}

    def run(self) -> "Stretch":
        """Runs up to a clock with a choice, or the end of the stretch."""
        for _ in range(MOST_CLOCKS):
            self.clock()
            if self.found is not None or self.used:
                break
        return self

    # What a machine looks at.

    def seen(self, pin: int) -> int:
        """The reference of a pin as machines see it in this clock."""
        if pin not in self.cache:
            self.cache[pin] = self.pad_seen(pin)
        return self.now(self.cache[pin])

    def pad_seen(self, pin: int) -> int:
        """The same, looked up."""
        asked, state = self.asked, self.state
        bypasses = asked.pins["bypass"] >> pin & 1
        if pin in asked.place:
            levels, directions = state.now if bypasses else state.earlier
            if directions[asked.place[pin]]:
                return levels[asked.place[pin]]
        elif asked.pins["out"] >> pin & 1:
            return asked.pins["level"] >> pin & 1
        clock = state.clock if bypasses else state.clock - 2
        if clock + asked.held < 0:
            return asked.pins["high"] >> pin & 1
        bit = self.new_bit(1)
        self.tell("pin", pin, clock, bit)
        return 2 * bit

    def new_bit(self, count: int) -> int:
        """The first of so many new free bits."""
        self.state.free += count
        return self.state.free - count

    def tx_is_empty(self, asked: AskedMachine, machine: MachineState) -> bool:
        """Whether TX is empty at the clock's start."""
        if machine.tx_high == 0 or machine.tx_low > 0:
            return machine.tx_high == 0
        if self.choose(2):
            machine.tx_high = 0
            self.tell("tx most", machine.number, self.state.clock, machine.taken)
            return True
        machine.tx_low = 1
        return False

    def rx_is_full(self, asked: AskedMachine, machine: MachineState) -> bool:
        """Whether RX is full at the clock's start."""
        room = asked.rx_room
        if machine.rx_low >= room or machine.rx_high < room:
            return machine.rx_low >= room
        if self.choose(2):
            machine.rx_low = room
            self.tell("rx most", machine.number, self.state.clock, machine.pushed - room)
            return True
        machine.rx_high = room - 1
        self.tell("rx least", machine.number, self.state.clock, machine.pushed - room + 1)
        return False

    def status(self, asked: AskedMachine, machine: MachineState) -> bool:
        """Whether STATUS is all ones."""
        number, is_rx = asked.setup["status_n"], asked.setup["status_rx"]
        low, high = (machine.rx_low, machine.rx_high) if is_rx else (machine.tx_low, machine.tx_high)
        if high < number or low >= number:
            return high < number
        is_below = not self.choose(2)
        if is_below:
            high = number - 1
        else:
            low = number
        bound = high if is_below else low
        if is_rx:
            machine.rx_low, machine.rx_high = low, high
            self.tell("rx least" if is_below else "rx most", machine.number, self.state.clock, machine.pushed - bound)
        else:
            machine.tx_low, machine.tx_high = low, high
            self.tell("tx most" if is_below else "tx least", machine.number, self.state.clock, machine.taken + bound)
        return is_below

    def taken_word(self, asked: AskedMachine, machine: MachineState) -> Value:
        """The word that a machine takes out of TX."""
        machine.taken += 1
        self.tell("tx least", machine.number, self.state.clock, machine.taken)
        if not asked.reads_osr:
            return 0
        first = self.new_bit(32)
        self.tell("word", machine.number, machine.taken - 1, first)
        return new_bits(first)

    # A clock.

    def clock(self) -> None:
        """One clock, and then the way to the next one in which something happens."""
        state, asked = self.state, self.asked
        self.flags, self.cache, self.chosen = state.flags, {}, {}
        if self.is_excused(state.machines[asked.own]):
            state.newest = state.oldest = None
        ticks: list[Optional[Tick]] = []
        has_word = state.machines[asked.own].pending is not None
        for it, machine in zip(asked.machines, state.machines):
            has_tick = machine.tick * it.period >> 8 == state.clock
            machine.tick += has_tick
            ticks.append(Tick(self, it, machine) if has_tick else None)
        own = ticks[asked.own]
        act = own if own is not None and own.word is not None and not has_word else None
        misses = act is not None and act.finishes and not self.is_kept(act.address, state.machines[asked.own])
        if misses and not state.machines[asked.own].delay:
            raise Dead
        levels = self.merged(ticks)
        for tick in filter(None, ticks):
            state.flags &= ~tick.lowers
        for tick in filter(None, ticks):
            state.flags |= tick.raises
        for it, machine, tick in zip(asked.machines, state.machines, ticks):
            settle(it, machine, tick is not None and tick.takes, tick is not None and tick.gives, 1)
        old = state.now
        state.earlier, state.before, state.now = state.before, state.now, levels
        self.age(old, levels, own, act)
        if misses and self.found is None:
            self.end_in_delay()
        if self.found is not None:
            return
        if own is not None and own.finishes:
            ends = (levels[it[0]][asked.place[it[1]]] if it else 0 for it in asked.ends)
            state.context = self.guide.after(state.context, own.address, state.machines[asked.own], *ends)
        state.clock += 1
        if asked.is_alone:
            self.look_for_turn(own, old == levels)
        self.advance()

    def merged(self, ticks: list[Optional[Tick]]) -> tuple[Bits, Bits]:
        """The levels and directions after the clock; those of the span's pins are chosen."""
        place = self.asked.place
        levels, directions = map(list, self.state.now)
        for tick in filter(None, ticks):
            for pin, reference in tick.levels:
                if pin in place:
                    levels[place[pin]] = reference
            for pin, reference in tick.directions:
                if pin in place:
                    directions[place[pin]] = self.bit(reference)
        for signal, pin in self.asked.edges:
            if signal == 0:
                levels[place[pin]] = self.bit(levels[place[pin]])
        return tuple(map(self.now, levels)), tuple(directions)

    def is_kept(self, address: int, machine: MachineState) -> bool:
        """Whether X and Y are as assumed after the instruction at an address; what is free is chosen so, where that can be."""
        return all(self.is_within(machine, name, *it) for name in ("x", "y") if (it := self.asked.meets.get((address, name))))

    def end_in_delay(self) -> None:
        """Looks for an excess in the delay after an instruction that leaves X or Y otherwise than assumed, up to before its last tick."""
        machine, asked = self.state.machines[self.asked.own], self.asked
        last = (machine.tick + machine.delay - 1) * asked.machines[asked.own].period >> 8
        self.look_for_excess(machine.delay - 1, last - 1)
        if self.found is None:
            self.is_complete = self.is_complete and asked.is_alone
            raise Dead

    def is_excused(self, machine: MachineState) -> bool:
        """Whether the span says nothing any more of a from-edge before this clock, by its machine's state at the clock's start."""
        asked = self.asked
        if machine.begun:
            return asked.is_prompt and machine.pc not in asked.stalls
        return machine.pc in asked.without and machine.delay == 0 and machine.pending is None

    def excused_from(self, clock: int) -> int:
        """The first clock before this one in which the span is excused, while mere delays go on; or this one."""
        machine, asked = self.state.machines[self.asked.own], self.asked
        if self.is_excused(machine):
            return self.state.clock
        if machine.delay and machine.pending is None and machine.pc in asked.without:
            last = (machine.tick + machine.delay - 1) * asked.machines[asked.own].period >> 8
            return min(last + 1, clock)
        return clock

    def has_event(self, number: int, old: tuple[Bits, Bits], new: tuple[Bits, Bits], act: Optional[Tick]) -> bool:
        """Whether the span's from-event (0) or its to-event (1) comes between these levels and directions.

        The tick is that of an instruction in memory, its first one or a late one.
        """
        event, end = self.asked.events[number], self.asked.ends[number]
        if event.addresses is not None and (act is None or act.address not in event.addresses):
            return False
        if end is None:
            return act is not None and act.finishes
        signal, place = end[0], self.asked.place[end[1]]
        return old[signal][place] != new[signal][place] == event.bit

    def age(self, old: tuple[Bits, Bits], new: tuple[Bits, Bits], own: Optional[Tick], act: Optional[Tick]) -> None:
        """Counts the clock's tick, and looks at its events; those of a word that was pending count for no address."""
        state, asked = self.state, self.asked
        if own is not None:
            is_named = self.is_named(own)
            if own.is_late and not is_named and state.newest is not None and asked.span["max"] != inf:
                self.found = state.clock + 1
                return
            state.counted += not is_named
        if state.newest is not None and state.oldest is not None:
            self.look_for_excess(0, state.clock)
            if self.found is not None:
                return
            if self.has_event(1, old, new, act):
                clock, counted = state.newest
                count = state.clock - clock if asked.in_clocks else state.counted - counted
                if count < asked.span["min"]:
                    self.found = state.clock + 1
                state.newest = state.oldest = None
        if self.has_event(0, old, new, act):
            state.newest = state.clock, state.counted
            state.oldest = state.oldest or state.newest

    def is_named(self, tick: Tick) -> bool:
        """Whether a tick is late at an address that the span names."""
        return tick.is_late and tick.address in self.asked.stalls

    def look_for_excess(self, ticks: int, last: int) -> None:
        """Whether the oldest from-edge has passed `max` in a clock, with so many ticks from now on, up to the last of which."""
        state, asked, most = self.state, self.asked, self.asked.span["max"]
        if state.oldest is None:
            return
        if asked.in_clocks:
            if last - state.oldest[0] > most:
                self.found = state.oldest[0] + most + 2
        elif state.counted + ticks - state.oldest[1] > most:
            more = most + 1 - (state.counted - state.oldest[1])
            machine, period = state.machines[asked.own], asked.machines[asked.own].period
            self.found = ((machine.tick + more - 1) * period >> 8) + 1 if ticks else last + 1

    def advance(self) -> None:
        """Goes on to the next clock in which a machine has a tick that isn't mere delay."""
        state, asked = self.state, self.asked
        clock = min(next_clock(it, machine) for it, machine in zip(asked.machines, state.machines))
        if clock == state.clock or self.found is not None:
            return
        excused = self.excused_from(clock)
        for place, (it, machine) in enumerate(zip(asked.machines, state.machines)):
            tick = -(-256 * clock // it.period)
            ticks = tick - machine.tick
            if place == asked.own:
                self.look_for_excess(ticks, excused - 1)
                state.counted += ticks
            machine.delay -= ticks
            machine.tick = tick
            settle(it, machine, False, False, clock - state.clock)
        state.earlier = state.now if clock - state.clock > 1 else state.before
        state.before = state.now
        state.clock = clock
        if excused < clock:
            state.newest = state.oldest = None

    # Counted loops.

    def look_for_turn(self, own: Optional[Tick], is_quiet: bool) -> None:
        """Leaps over the turns of a loop that only counts down a known register."""
        machine, state = self.state.machines[0], self.state
        if own is None or own.word is None:
            return
        is_plain = own.word.kind == JMP and own.word.high != 6 or own.word.kind == SET or own.word.word & 0xE0FF == 0xA042
        if not is_plain or not is_quiet or self.used or own.takes or own.address in self.asked.watched:
            self.turns.clear()
            return
        if own.word.kind != JMP or machine.pc > own.address:
            return
        shape = state.context, state.now, state.flags, machine.delay, machine.isr, machine.osr
        shape += machine.in_count, machine.out_count
        before = self.turns.get(machine.pc)
        self.turns[machine.pc] = shape, machine.x, machine.y, machine.tick
        if before and before[0] == shape and isinstance(machine.x, int) and isinstance(machine.y, int):
            turns = leapt_turns(before[1], before[2], machine.x, machine.y)
            if turns > 0:
                self.leap(turns, machine.tick - before[3], before[1] != machine.x)

    def leap(self, turns: int, ticks: int, is_x: bool) -> None:
        """Goes round so many turns of so many ticks each."""
        state, machine, it = self.state, self.state.machines[0], self.asked.machines[0]
        after = machine.tick + turns * ticks
        clock = after * it.period >> 8
        # The ticks of a delay that is left are counted when it is leapt over.
        self.look_for_excess(turns * ticks, clock - 1)
        state.counted += turns * ticks
        machine.x, machine.y = (machine.x - turns, machine.y) if is_x else (machine.x, machine.y - turns)
        machine.tick = after
        settle(it, machine, False, False, clock - state.clock)
        state.before = state.earlier = state.now
        state.clock = max(clock, state.clock)
        self.turns.clear()


def leapt_turns(x: Any, y: Any, x_now: int, y_now: int) -> int:
    """How many turns of a loop more go as the last one did, in which one of two registers fell by 1."""
    if (x, y) not in ((x_now + 1, y_now), (x_now, y_now + 1)):
        return 0
    falling, other = (x_now, y_now) if y == y_now else (y_now, x_now)
    return (falling if falling <= other else falling - other) - 2


def next_clock(asked: AskedMachine, machine: MachineState) -> int:
    """The clock of a machine's next tick that isn't mere delay."""
    delay = machine.delay
    if delay and asked.setup["autopull"] and machine.out_count >= asked.setup["pull_threshold"]:
        delay -= 1
    return (machine.tick + delay) * asked.period >> 8


def settle(asked: AskedMachine, machine: MachineState, takes: bool, gives: bool, clocks: int) -> None:
    """The levels of a machine's FIFOs after so many clocks, of which the first one takes or gives a word."""
    room = asked.tx_room
    if takes:
        machine.tx_low, machine.tx_high = max(machine.tx_low, 1) - 1, min(room - 1, machine.tx_high)
        clocks_to_write = clocks - 1
    else:
        clocks_to_write = clocks
    machine.tx_high = min(room, machine.tx_high + clocks_to_write)
    if gives:
        machine.pushed += 1
        machine.rx_low, machine.rx_high = max(machine.rx_low - 1, 0) + 1, machine.rx_high + 1
        clocks -= 1
    machine.rx_low = max(0, machine.rx_low - clocks)
