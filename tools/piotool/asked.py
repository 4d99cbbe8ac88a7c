"""What a search for a run that breaks a span looks at: the machines that matter, their words as they are read, their pins."""

from copy import copy
from dataclasses import dataclass
from functools import lru_cache
from typing import Any, Optional

from piotool.machine_model import Setup, period_of, rooms_of
from piotool.set_up import SetUp
from piotool.shares_model import Touched
from piotool.span_model import end_of, meet_of

JMP, WAIT, IN, OUT, PUSH_PULL, MOV, IRQ, SET = range(8)
PINS, X, Y, NULL, PINDIRS, PC, ISR, OSR_OR_EXEC = range(8)
TO_EXEC = 4  # of MOV


@dataclass(frozen=True)
class Word:
    """A word as a machine reads it; its side-set by pin."""

    word: int
    kind: int
    high: int
    low: int
    side: Optional[tuple[tuple[int, int], ...]]
    delay: int
    is_nothing: bool

    @property
    def bit7(self) -> int:
        """Bit 7, which is a WAIT's polarity, and parts PULL from PUSH."""
        return self.word >> 7 & 1


@lru_cache(8192)
def read_word(word: int, base: int, bits: int, opt: int) -> Word:
    """The word under a side-set rule."""
    shared, delay_bits = word >> 8 & 31, 5 - bits - opt
    value = shared >> delay_bits & (1 << bits) - 1
    is_there = bits > 0 and (not opt or shared & 16)
    side = tuple(((base + place) % 32, value >> place & 1) for place in range(bits)) if is_there else None
    kind, high, low = word >> 13, word >> 5 & 7, word & 31
    nothing = {
        WAIT: high & 3 == 3,
        IN: high in (4, 5),
        PUSH_PULL: low != 0,
        MOV: high == 3 or word >> 3 & 3 == 3 or word & 7 == 4,
        IRQ: high >> 2 == 1,
        SET: high not in (PINS, X, Y, PINDIRS),
    }
    return Word(word, kind, high, low, side, shared & (1 << delay_bits) - 1, nothing.get(kind, False))


def mapped_pins(base: int, count: int) -> list[int]:
    """The pins of a mapping, in order."""
    return [(base + place) % 32 for place in range(count)]


class AskedMachine:
    """A machine of the search: its words by address, and which registers its program looks into."""

    def __init__(self, number: int, setup: Setup, memory: list[int]) -> None:
        self.number, self.setup, self.period = number, setup, period_of(setup)
        self.tx_room, self.rx_room = rooms_of(setup)
        self.touched = Touched(number, setup, memory)
        self.side = setup["side_base"], setup["side_bits"], int(setup["side_opt"])
        self.words = [self.read(word) for word in memory]
        self.reached = sorted(self.touched.reach)
        self.set_pins = mapped_pins(setup["set_base"], setup["set_count"])
        self.out_pins = mapped_pins(setup["out_base"], setup["out_count"])
        self.look_into()

    def read(self, word: int) -> Word:
        """A word under the machine's rule."""
        return read_word(word, *self.side)

    def run(self) -> list[Word]:
        """The words that it may run: those in reach, and the one that is pending at its start."""
        pending = self.setup["pending"]
        return [self.words[address] for address in self.reached] + ([] if pending is None else [self.read(pending)])

    def look_into(self) -> None:
        """Which registers and FIFOs the program looks into."""
        words = [it for it in self.run() if not it.is_nothing]
        moves = {it.word & 7 for it in words if it.kind == MOV and (it.high, it.word >> 3 & 3, it.word & 7) != (Y, 0, Y)}
        ins = {it.high for it in words if it.kind == IN}
        tests = {it.high for it in words if it.kind == JMP}
        pulls = [it for it in words if it.kind == PUSH_PULL and it.bit7]
        self.reads_isr = ISR in moves
        self.reads_osr = OSR_OR_EXEC in moves or any(it.kind == OUT and it.high != NULL for it in words)
        self.reads_osr = self.reads_osr or self.reads_isr and OSR_OR_EXEC in ins
        x_is_copied = X in moves or self.reads_isr and X in ins or self.reads_osr and any(not it.high & 1 for it in pulls)
        y_is_copied = Y in moves or self.reads_isr and Y in ins
        self.reads_x = x_is_copied or bool(tests & {1, 2, 5})
        self.reads_y = y_is_copied or bool(tests & {3, 4, 5})
        self.only_counts_x = not x_is_copied and 5 not in tests
        self.only_counts_y = not y_is_copied and 5 not in tests
        self.asks_status = 5 in moves
        takes = bool(pulls) or self.setup["autopull"]
        gives = any(it.kind == PUSH_PULL and not it.bit7 for it in words) or self.setup["autopush"]
        self.asks_tx = takes or self.asks_status and not self.setup["status_rx"]
        self.asks_rx = gives or self.asks_status and self.setup["status_rx"]
        self.counts_in = gives
        self.counts_out = self.setup["autopull"] or 7 in tests or any(it.high & 2 for it in pulls)
        self.runs_data = any(it.kind == OUT and it.high == 7 or it.kind == MOV and it.high == TO_EXEC for it in words)
        self.jumps_by_data = any(it.kind in (OUT, MOV) and it.high == PC for it in words)

    def look_at(self, names: set[str]) -> None:
        """Adds that the span looks into these registers."""
        self.reads_x, self.reads_y = self.reads_x or "x" in names, self.reads_y or "y" in names

    def written(self) -> tuple[set[int], set[int]]:
        """The pins whose levels and whose directions an instruction in reach may write."""
        levels: set[int] = set()
        directions: set[int] = set()
        for word in self.run():
            if word.side is not None:
                (directions if self.setup["side_pindirs"] else levels).update(pin for pin, _ in word.side)
            if word.kind == SET and word.high in (PINS, PINDIRS):
                (levels if word.high == PINS else directions).update(self.set_pins)
            is_move = word.kind == MOV and word.high == PINS and not word.is_nothing
            if is_move or word.kind == OUT and word.high in (PINS, PINDIRS):
                (levels if word.high == PINS else directions).update(self.out_pins)
        if self.runs_data:
            side = set(mapped_pins(self.setup["side_base"], self.setup["side_bits"]))
            (directions if self.setup["side_pindirs"] else levels).update(side)
            levels.update(self.set_pins, self.out_pins)
        return levels, directions


class Asked:
    """A span of a set-up, with all that matters to it.

    Where it is held, the machines are enabled and restarted after so many clocks: clocks are counted from there, TX may be full and pins
    may be anything then.
    """

    def __init__(self, block: SetUp, span: dict[str, Any], held: int = 0) -> None:
        self.block, self.span, self.held = block, span, held
        self.pins = block.pins
        machines = {number: AskedMachine(number, setup, block.memory) for number, setup in sorted(block.setups.items())}
        self.events = end_of(span, "from"), end_of(span, "to")
        # Of each end that is an edge the pin, and the signal, 0 a level and 1 a direction, as `written` and a state have them; else none.
        self.ends = tuple(("pd".index(it.wire[0]), int(it.wire[1:])) if it.wire else None for it in self.events)
        self.edges = [it for it in self.ends if it]
        assume = span.get("assume", [])
        self.meets = {(one["after"], name): it for one in assume for name in ("x", "y") if (it := meet_of(assume, one["after"], name))}
        self.watched = frozenset(at for it in self.events if it.wire is None for at in it.addresses or ())
        self.watched |= {one["after"] for one in assume}
        self.machines = [machines[number] for number in sorted(self.chosen(machines))]
        self.others = [it for it in machines.values() if it not in self.machines]
        self.numbers = [it.number for it in self.machines]
        self.own = self.numbers.index(span["machine"])
        self.machines[self.own].look_at({name for _, name in self.meets})
        reads: set[int] = set().union(*(it.touched.reads for it in self.machines))
        levels: set[int] = set().union(*(it.written()[0] for it in self.machines))
        self.directed: set[int] = set().union(*(it.written()[1] for it in self.machines))
        self.kept = sorted({pin for _, pin in self.edges} | (levels | self.directed) & reads)
        self.place = {pin: place for place, pin in enumerate(self.kept)}
        self.looks_back = bool((levels | self.directed) & reads)
        self.is_alone = len(self.machines) == 1
        self.in_clocks = span["unit"] == "clocks"
        self.stalls, self.without = set(span["stalls"]), set(span.get("without", []))
        self.is_prompt = bool(span.get("prompt"))

    def writes_ends(self, machine: AskedMachine) -> bool:
        """Whether an instruction in reach of a machine may write what the span's edges are of."""
        written = machine.written()
        return any(pin in written[signal] for signal, pin in self.edges)

    def chosen(self, machines: dict[int, AskedMachine]) -> set[int]:
        """The span's machine, and each that a chosen one feels by flags or pins, or that writes a pin of the span."""
        found = {self.span["machine"]}
        written = {number: it.written() for number, it in machines.items()}
        while True:
            sees = set().union(*(machines[it].touched.sees for it in found))
            reads = set().union(*(machines[it].touched.reads for it in found))
            more = set()
            for number, it in machines.items():
                levels, directions = written[number]
                if it.touched.changes & sees or (levels | directions) & reads or self.writes_ends(it):
                    more.add(number)
            more -= found
            if not more:
                return found
            found |= more

    def unmoved_from(self) -> Optional[str]:
        """Why no from-event can come: no instruction in reach writes what it is of, or none that is named is in reach. Else none."""
        event, end = self.events[0], self.ends[0]
        if end and all(end[1] not in it.written()[end[0]] for it in self.machines):
            return f"no instruction that a run comes to writes p{end[1]}"
        own = self.machines[self.own]
        if event.addresses is not None and not own.runs_data and not own.jumps_by_data and not event.addresses & set(own.reached):
            return "no run comes to an instruction that its from-edge names"
        return None

    def alone(self) -> SetUp:
        """The set-up without the machines that don't matter."""
        block = copy(self.block)
        block.setups = {number: setup for number, setup in self.block.setups.items() if number in self.numbers}
        return block

    def of_others(self) -> set[str]:
        """The names of the values in a trace that the other machines may write."""
        found = {f"{letter}{it.number}" for it in self.others for letter in "trws"}
        for it in self.others:
            levels, directions = it.written()
            found |= {f"p{pin}" for pin in levels} | {f"d{pin}" for pin in directions}
            found |= {f"f{flag}" for flag in it.touched.changes}
        return found
