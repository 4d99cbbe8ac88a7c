"""Choices: what a search finds where a machine looks at something that is free. A tape of choices is gone through from its start.

What is chosen of a free bit is put in its place everywhere in the state at once.
"""

from math import inf
from typing import Any, Optional

from piotool.asked import Asked, AskedMachine
from piotool.lazy_state import MachineState, State
from piotool.lazy_values import Bits, Clause, Value, clause_with, differing, with_bit
from piotool.machine_model import ALL_ONES

FEW_BITS = 5  # so many free bits of a counter are all tried
COUNTERS = (0, ALL_ONES, 1, 2, 3, 7, 31, 255)  # what else is tried of a counter
MOST_NUMBERS = 40  # so many numbers of a range are all tried
REGISTERS = ("x", "y", "isr", "osr")
# The words that are tried where data is run, before side-set and delay: set pins, nop, mov pins from null.
RUN_WORDS = (0xE000, 0xE001, 0xE002, 0xE01F, 0xA042, 0xA003, 0xA00B)
MOST_RUN_WORDS = 90


class Dead(Exception):
    """Choices that contradict each other."""


class Choices:
    """The choices of some clocks of a state. `is_complete` says that no possibility was left out."""

    def __init__(self, asked: Asked, state: State, tape: list[int], log: Optional[list[tuple]]) -> None:
        self.asked, self.state, self.tape, self.log = asked, state, tape, log
        self.used: list[tuple[int, int]] = []
        self.is_complete = True
        self.chosen: dict[int, int] = {}  # in this clock

    def next_tape(self) -> Optional[list[int]]:
        """The tape after this one: the last choice that can be another one is."""
        tape = [taken for taken, _ in self.used]
        for place in reversed(range(len(tape))):
            if tape[place] + 1 < self.used[place][1]:
                return [*tape[:place], tape[place] + 1]
        return None

    def choose(self, options: int) -> int:
        """One of so many options."""
        place = len(self.used)
        taken = self.tape[place] if place < len(self.tape) else 0
        self.used.append((taken, options))
        return taken

    def tell(self, *what: Any) -> None:
        """Puts a line into the log."""
        if self.log is not None:
            self.log.append(what)

    def now(self, reference: int) -> int:
        """A reference by what was chosen in this clock."""
        while reference > 1 and reference >> 1 in self.chosen:
            reference = self.chosen[reference >> 1] ^ (reference & 1)
        return reference

    def bit(self, reference: int) -> int:
        """The bit of a reference; a free one is chosen."""
        reference = self.now(reference)
        if reference > 1:
            taken = self.choose(2)
            self.fix(reference >> 1, taken ^ (reference & 1))
            return taken
        return reference

    def demand(self, reference: int, wanted: int) -> None:
        """Has a reference be this bit."""
        reference = self.now(reference)
        if reference > 1:
            self.fix(reference >> 1, wanted ^ (reference & 1))
        elif reference != wanted:
            raise Dead

    def fix(self, bit: int, reference: int) -> None:
        """Puts a reference in the place of a free bit, everywhere."""
        state = self.state
        self.chosen[bit] = reference
        self.tell("bit", bit, reference)
        for machine in state.machines:
            for name in REGISTERS:
                value = getattr(machine, name)
                if not isinstance(value, int):
                    setattr(machine, name, with_bit(value, bit, reference))
        state.now, state.before, state.earlier = (
            (exchanged(levels, bit, reference), directions) for levels, directions in (state.now, state.before, state.earlier)
        )
        if state.clauses:
            clauses, state.clauses = state.clauses, ()
            for clause in clauses:
                self.exclude(clause_with(clause, bit, reference) if any(it >> 1 == bit for it in clause) else clause)

    def exclude(self, clause: Optional[Clause]) -> None:
        """Has the references of a clause not be all 1."""
        if clause is None:
            return
        if not clause:
            raise Dead
        if len(clause) == 1:
            self.demand(next(iter(clause)), 0)
        else:
            self.state.clauses += (clause,)
            self.tell("not", clause)

    def is_number(self, machine: MachineState, name: str, number: int) -> bool:
        """Whether a register is this number."""
        value: Value = getattr(machine, name)
        if isinstance(value, int):
            return value == number
        clause = differing(value, number)
        if clause is None:
            return False
        if self.choose(2):
            self.exclude(clause)
            return False
        for it in sorted(clause):
            self.demand(it, 1)
        return True

    def are_equal(self, machine: MachineState, one: str, other: str) -> bool:
        """Whether two registers are equal."""
        values = getattr(machine, one), getattr(machine, other)
        if isinstance(values[1], int):
            return self.is_number(machine, one, values[1])
        if isinstance(values[0], int):
            return self.is_number(machine, other, values[0])
        apart = [pair for pair in zip(*values) if pair[0] != pair[1]]
        if not apart:
            return True
        if self.choose(2):
            self.is_complete = False
            first, second = apart[0]
            self.demand(second, 1 ^ self.bit(first))
            return False
        for first, second in apart:
            first, second = self.now(first), self.now(second)
            if second > 1:
                first, second = second, first
            if first > 1 and first >> 1 != second >> 1:
                self.fix(first >> 1, second ^ (first & 1))
            elif first != second:
                raise Dead
        return True

    def counted_value(self, machine: MachineState, name: str) -> int:
        """A register as a number, to be counted down."""
        value: Value = getattr(machine, name)
        if isinstance(value, int):
            return value
        if len({it >> 1 for it in value if it > 1}) > FEW_BITS:
            most = self.asked.span["min" if self.asked.span["max"] == inf else "max"]
            return self.one_of(value, [*COUNTERS, most & ALL_ONES, most * 2 & ALL_ONES])
        return self.chosen_number(value)

    def is_within(self, machine: MachineState, name: str, least: int, most: int) -> bool:
        """Whether a register is in a range. Where bits of it are free, it is chosen as a number of it: each of few, else some."""
        value: Value = getattr(machine, name)
        if isinstance(value, int):
            return least <= value <= most
        numbers = range(least, most + 1)
        if len(numbers) > MOST_NUMBERS:
            self.is_complete = False
            near = (least, most, least + 1, most - 1, (least + most) // 2)
            numbers = [*near, *(it for it in COUNTERS if least <= it <= most)]
        fitting = [it for it in dict.fromkeys(numbers) if differing(value, it) is not None]
        if not fitting:
            return False
        number = fitting[self.choose(len(fitting))]
        for place, it in enumerate(value):
            self.demand(it, number >> place & 1)
        return True

    def chosen_number(self, value: Value) -> int:
        """A word as a number, of which each free bit is chosen."""
        return value if isinstance(value, int) else sum(self.bit(it) << place for place, it in enumerate(value))

    def one_of(self, value: Bits, numbers: list[int], least: int = 32) -> int:
        """A word as one of these numbers; its free bits are 0 where it can't be any of them."""
        self.is_complete = False
        low = value[:least] + (0,) * (32 - least)
        fitting = [it for it in dict.fromkeys(numbers) if differing(low, it) is not None or low_is(low, it)]
        number = fitting[self.choose(len(fitting))] if fitting else sum(it << place for place, it in enumerate(low) if it == 1)
        for place, it in enumerate(low):
            self.demand(it, number >> place & 1)
        return number

    def chosen_word(self, asked: AskedMachine, machine: MachineState, name: Optional[str], value: Value) -> int:
        """The low half of a word as an instruction that is run."""
        if isinstance(value, int):
            return value & 0xFFFF
        if all(it < 2 for it in value[:16]):
            return sum(it << place for place, it in enumerate(value[:16]))
        return self.one_of(value, words_to_run(asked), 16)


def low_is(bits: Bits, number: int) -> bool:
    """Whether a word without free bits is this number."""
    return max(bits) < 2 and sum(it << place for place, it in enumerate(bits)) == number


def exchanged(bits: Bits, bit: int, reference: int) -> Bits:
    """References with another one in the place of a free bit."""
    return tuple(reference ^ (it & 1) if it >> 1 == bit and it > 1 else it for it in bits)


def words_to_run(asked: AskedMachine) -> list[int]:
    """The words that are tried where data is run."""
    jumps = [address for address in range(32) if address in asked.touched.reach][:32]
    live = [it for it in jumps if asked.words[it].word] or [0]
    plain = [*RUN_WORDS, *live]
    bits, opt = asked.side[1], asked.side[2]
    delay_bits = 5 - bits - opt
    sides = [((1 << bits) | value if opt else value) << delay_bits for value in range(1 << bits)][:4] + [0] * opt
    fields = [side for side in sides] + [side | (1 << delay_bits) - 1 for side in sides[:2] if delay_bits]
    return [word | field << 8 for field in dict.fromkeys(fields or [0]) for word in plain][:90]
