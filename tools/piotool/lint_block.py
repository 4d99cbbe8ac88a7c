"""Warnings of a set-up alone: what its machines never can do, by the words that each of them reaches.

What may be is taken widely and what never is narrowly: a machine that executes a word of data may do anything that its mappings have.
So a warning holds in every run.
"""

from dataclasses import dataclass
from typing import Iterator, Optional

from piotool.lint_files import Files
from piotool.lint_said import Place, Said
from piotool.machine_model import Setup
from piotool.set_up import SetUp
from piotool.shares_model import Touched, pins_from
from piotool.span_model import EVENTS, Machine, is_move
from piotool.telling import EDGES

JMP, WAIT, IN, OUT, PUSH_PULL, MOV, IRQ, SET = range(8)
PINS, PINDIRS, ISR, OSR = 0, 4, 6, 7
MOST_PINS = range(32)
NOWHERE = -1  # the address of the word that is pending at the start


@dataclass(frozen=True)
class Op:
    """An instruction that a machine may reach: its address, its kind and its fields."""

    address: int
    word: int

    @property
    def kind(self) -> int:
        """Bits 15 to 13."""
        return self.word >> 13

    @property
    def high(self) -> int:
        """Bits 7 to 5."""
        return self.word >> 5 & 7

    @property
    def low(self) -> int:
        """Bits 4 to 0."""
        return self.word & 31

    def is_out(self, place: int) -> bool:
        """Whether it is an OUT to a place."""
        return self.kind == OUT and self.high == place

    def is_set(self, place: int) -> bool:
        """Whether it is a SET of a place."""
        return self.kind == SET and self.high == place

    def is_mov(self, place: int) -> bool:
        """Whether it is a MOV to a place."""
        return self.kind == MOV and self.high == place and is_move(self.word)

    def moves_from(self, source: int) -> bool:
        """Whether it is a MOV from a source."""
        return self.kind == MOV and self.low & 7 == source and is_move(self.word)

    def is_push(self) -> bool:
        """Whether it is a PUSH."""
        return self.kind == PUSH_PULL and self.word & 0x9F == 0

    def is_pull(self) -> bool:
        """Whether it is a PULL."""
        return self.kind == PUSH_PULL and self.word & 0x9F == 0x80


class Reached:
    """What a machine reaches, and what it may do there."""

    def __init__(self, number: int, setup: Setup, memory: list[int]) -> None:
        self.number, self.setup, self.memory = number, setup, memory
        self.touched = Touched(number, setup, memory)
        self.ops = [Op(address, memory[address]) for address in sorted(self.touched.reach)]
        if setup["pending"] is not None:
            self.ops.append(Op(NOWHERE, setup["pending"]))
        self.executes = any(it.is_out(7) or it.is_mov(4) for it in self.ops)
        self.out = pins_from(setup["out_base"], setup["out_count"])
        self.set = pins_from(setup["set_base"], setup["set_count"])
        self.side = pins_from(setup["side_base"], setup["side_bits"])

    def side_of(self, op: Op) -> Optional[int]:
        """The value of an instruction's side-set, or none."""
        bits, opt = self.setup["side_bits"], int(self.setup["side_opt"])
        shared = op.word >> 8 & 31
        if not bits or opt and not shared & 16:
            return None
        return shared >> (5 - bits - opt) & (1 << bits) - 1

    def may_direct(self) -> set[int]:
        """The pins whose direction it may make out."""
        found: set[int] = set()
        setup = self.setup
        for it in self.ops:
            if it.is_set(PINDIRS):
                found |= {(setup["set_base"] + bit) % 32 for bit in range(setup["set_count"]) if it.low >> bit & 1}
            if it.is_out(PINDIRS):
                found |= self.out
            side = self.side_of(it)
            if side and setup["side_pindirs"]:
                found |= {(setup["side_base"] + bit) % 32 for bit in range(setup["side_bits"]) if side >> bit & 1}
        if self.executes:
            found |= self.set | self.out | (self.side if setup["side_pindirs"] else set())
        return found

    def raises(self) -> set[int]:
        """The flags that it may raise."""
        if self.executes:
            return set(range(8))
        return {self.touched.flag(it.low) for it in self.ops if it.kind == IRQ and not it.word & 0xC0}

    def fills_osr(self) -> bool:
        """Whether something may fill its OSR."""
        fills = any(it.is_pull() or it.is_mov(OSR) for it in self.ops)
        return self.executes or self.setup["autopull"] or self.setup["osr"] != 0 or fills

    def takes_isr(self) -> bool:
        """Whether something may take its ISR."""
        takes = any(it.is_push() or it.moves_from(ISR) or it.kind == IN and it.high == ISR for it in self.ops)
        return self.executes or self.setup["autopush"] or takes

    def may_wait(self, word: int) -> bool:
        """Whether an instruction may stall."""
        return Machine(self.memory, self.setup, {"from_pin": 0, "to_pin": 0, "from_edge": "rise", "to_edge": "rise", "stalls": []}).may_wait(word)

    def waits_but_at(self, stalls: set[int]) -> bool:
        """Whether it may wait at another address than these."""
        return self.executes or any(self.may_wait(it.word) and it.address not in stalls for it in self.ops)


class BlockLint:
    """The warnings of a set-up."""

    def __init__(self, files: Files, block: SetUp) -> None:
        self.files, self.block = files, block
        self.machines = {number: Reached(number, setup, block.memory) for number, setup in sorted(block.setups.items())}
        self.out = {pin for pin in MOST_PINS if block.pins["out"] >> pin & 1}
        self.out = self.out.union(*(it.may_direct() for it in self.machines.values()))
        lines = (fields_of_line(line) for line in files.stimulus_bytes.split(b"\n") if b"pin" in line)
        self.driven = {number(it[2]) for it in lines if len(it) == 4 and it[1] == "pin"}
        self.raised = set().union(*(it.raises() for it in self.machines.values()))

    def found(self, stimulus: bool) -> Iterator[Said]:
        """All warnings; `stimulus` says whether one is given, without which pins may be driven as well."""
        yield from self.of_spans()
        for it in self.machines.values():
            yield from self.of_mappings(it)
            yield from self.of_shifts(it)
            yield from self.of_waits(it, stimulus)
        yield from self.of_stalls()
        yield from self.of_excuses()
        yield from self.of_events()
        yield from self.of_counts()

    # Places.

    def table_of(self, number: int) -> str:
        """The path of a machine's table."""
        return next(f"machine[{place}]" for place, it in enumerate(self.block.tables["machine"]) if it["id"] == number)

    def place_of(self, number: int, address: int) -> Place:
        """The place of the instruction at an address, or the machine's table where no program has it there."""
        program = self.block.program_of[number]
        names = [program.name, *(name for name in self.block.places if name != program.name)]
        for name in names:
            offset = address - self.block.places.get(name, 99)
            if 0 <= offset < len(self.block.programs[name].words) and (place := self.files.word_place(name, offset)):
                return place
        return self.files.config_place(self.table_of(number)) if self.files.config else self.files.source_place(1)

    def own(self, it: Reached) -> list[Op]:
        """The instructions of a machine's own program that it may reach."""
        program = self.block.program_of[it.number]
        at = self.block.places[program.name]
        return [op for op in it.ops if at <= op.address < at + len(program.words)]

    def warn(self, place: Place, name: str, text: str) -> Said:
        """A warning."""
        return Said(place, "warning", text, name)

    # The warnings.

    def of_spans(self) -> Iterator[Said]:
        """Spans of pins that are never out, and of one name."""
        names: dict[str, int] = {}
        for place, table in enumerate(self.block.tables["span"]):
            pins = {table[key]: key for key in ("to_pin", "from_pin") if key in table}
            for pin, key in reversed(pins.items()):
                if pin not in self.out:
                    text = f'span {table["name"]}: p{pin} is never out: neither [pins] out nor an instruction makes it an output'
                    yield self.warn(self.files.config_place(f"span[{place}].{key}"), "pin-not-out", text)
            if table["name"] in names:
                text = f'a second span has the name {table["name"]}: table and recheck take the first one'
                yield self.warn(self.files.config_place(f"span[{place}].name"), "same-name", text)
            names.setdefault(table["name"], place)

    def of_mappings(self, it: Reached) -> Iterator[Said]:
        """Writes of pins that have no mapping, or of which none is ever out; the first of each kind."""
        kinds = (
            ("out pins", lambda op: op.is_out(PINS), it.out, "out_count"),
            ("out pindirs", lambda op: op.is_out(PINDIRS), it.out, "out_count"),
            ("mov pins", lambda op: op.is_mov(PINS), it.out, "out_count"),
            ("set pins", lambda op: op.is_set(PINS), it.set, "set_count"),
            ("side-set", lambda op: it.side_of(op) is not None and not it.setup["side_pindirs"], it.side, ""),
        )
        for what, holds, pins, key in kinds:
            first = next((op for op in self.own(it) if holds(op)), None)
            if first is None:
                continue
            place = self.place_of(it.number, first.address)
            if not pins:
                yield self.warn(place, "empty-mapping", f"{what} writes nothing: {key} of machine {it.number} is 0")
            elif not pins & self.out and what != "out pindirs":
                text = f"{what} of machine {it.number} writes {listed(pins)}, and no direction there is ever out"
                yield self.warn(place, "mapping-not-out", text)

    def of_shifts(self, it: Reached) -> Iterator[Said]:
        """OUT from an OSR that nothing fills, IN into an ISR that nothing takes."""
        first = next((op for op in self.own(it) if op.kind == OUT), None)
        if first and not it.fills_osr():
            text = f"machine {it.number} has no pull, no mov osr and no autopull: out gives zeros for ever"
            yield self.warn(self.place_of(it.number, first.address), "out-not-fed", text)
        first = next((op for op in self.own(it) if op.kind == IN and op.high not in (4, 5)), None)
        if first and not it.takes_isr():
            text = f"machine {it.number} has no push, no mov from isr and no autopush: what in takes goes nowhere"
            yield self.warn(self.place_of(it.number, first.address), "in-not-emptied", text)

    def of_waits(self, it: Reached, stimulus: bool) -> Iterator[Said]:
        """A WAIT that nothing ends."""
        for op in self.own(it):
            source, polarity = op.word >> 5 & 3, op.word >> 7 & 1
            if op.kind != WAIT or source == 3:
                continue
            place = self.place_of(it.number, op.address)
            if source == 2:
                flag = it.touched.flag(op.low)
                if polarity and flag not in self.raised:
                    text = f"machine {it.number} waits for flag {flag} here, and no configured machine raises it"
                    yield self.warn(place, "flag-not-raised", text)
                continue
            pin = (it.setup["in_base"] * source + op.low) % 32
            if stimulus and self.is_still(pin) and self.level(pin) != polarity:
                text = f"machine {it.number} waits for a {polarity} on pin {pin} here: no machine and no line drives it"
                yield self.warn(place, "pin-not-driven", text)

    def is_still(self, pin: int) -> bool:
        """Whether a pad never changes: no machine has the pin in a mapping, and no line of the stimulus drives it."""
        if any(pin in it.touched.writes for it in self.machines.values()):
            return False
        return pin not in self.driven

    def level(self, pin: int) -> int:
        """The pad of a pin that never changes."""
        pins = self.block.pins
        return (pins["level"] if pins["out"] >> pin & 1 else pins["high"]) >> pin & 1

    def of_stalls(self) -> Iterator[Said]:
        """Stalls that can't be."""
        for place, table in enumerate(self.block.tables["span"]):
            addresses = self.block.addresses(table["machine"])
            for number_, label in enumerate(table.get("stalls", [])):
                if not self.machines[table["machine"]].may_wait(self.block.memory[addresses[label]]):
                    text = f'span {table["name"]}: the instruction at "{label}" never waits'
                    yield self.warn(self.files.config_place(f"span[{place}].stalls[{number_}]"), "stall-never", text)

    def of_excuses(self) -> Iterator[Said]:
        """Spans under `prompt` of which no wait is excused, and labels of `without` that are never come to."""
        for place, table in enumerate(self.block.tables["span"]):
            machine, addresses = self.machines[table["machine"]], self.block.addresses(table["machine"])
            stalls = {addresses[label] for label in table.get("stalls", [])}
            if table.get("prompt") and not machine.waits_but_at(stalls):
                waits = f"machine {machine.number} never waits" + " but at its stalls" * machine.waits_but_at(set())
                text = f"span {table['name']}: prompt says nothing: {waits}"
                yield self.warn(self.files.config_place(f"span[{place}].prompt"), "prompt-never", text)
            for number_, label in enumerate(table.get("without", [])):
                if addresses[label] not in machine.touched.reach:
                    text = f'span {table["name"]}: machine {machine.number} never comes to "{label}"'
                    yield self.warn(self.files.config_place(f"span[{place}].without[{number_}]"), "without-never", text)

    def of_events(self) -> Iterator[Said]:
        """Labels of events that the machine never comes to, or whose instructions never make the edge."""
        for place, table in enumerate(self.block.tables["span"]):
            number, addresses = table["machine"], self.block.addresses(table["machine"])
            model = Machine(self.block.memory, self.block.setups[number], self.block.span(table))
            for key in EVENTS:
                event = model.ends[key.startswith("to")]
                for number_, label in enumerate(table.get(key, [])):
                    if addresses[label] not in self.machines[number].touched.reach:
                        text = f'span {table["name"]}: machine {number} never comes to "{label}"'
                    elif event.wire and event.bit not in model.bits_of(self.block.memory[addresses[label]], event.wire):
                        end = key.partition("_")[0]
                        edge = f"p{table[f'{end}_pin']} {EDGES[table[f'{end}_edge']][2]}"
                        text = f'span {table["name"]}: the instruction at "{label}" never makes {edge}'
                    else:
                        continue
                    yield self.warn(self.files.config_place(f"span[{place}].{key}[{number_}]"), "event-never", text)

    def of_counts(self) -> Iterator[Said]:
        """Two machines whose default set_count meets."""
        tables = [it for it in self.block.tables["machine"] if "set_count" not in it]
        for place, one in enumerate(tables):
            for other in tables[:place]:
                pins = self.machines[one["id"]].set & self.machines[other["id"]].set
                if pins:
                    text = f"machines {other['id']} and {one['id']} have no set_count, which is 5 then: both hold {listed(pins)}"
                    yield self.warn(self.files.config_place(self.table_of(one["id"])), "set-count", text)
                    break


def listed(pins: set[int]) -> str:
    """Pins as a text."""
    ordered = sorted(pins)
    if len(ordered) > 2 and ordered[-1] - ordered[0] == len(ordered) - 1:
        return f"p{ordered[0]} to p{ordered[-1]}"
    return ", ".join(f"p{pin}" for pin in ordered)


def fields_of_line(line: bytes) -> list[str]:
    """The fields of a line of a stimulus."""
    return line.partition(b"#")[0].decode("utf-8", "surrogateescape").split()


def number(text: str) -> int:
    """A number of a stimulus."""
    return int(text, 16 if text.startswith("0x") else 10)
