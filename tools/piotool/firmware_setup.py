"""The set-up that a recording comes to: machines, programs, pins and words; or the one line that says why it comes to none."""

from dataclasses import dataclass, field, replace

from piotool.calls import Fault
from piotool.firmware_chip import Block, Start
from piotool.firmware_forced import Machine
from piotool.firmware_map import DEFAULTS
from piotool.firmware_pins import pins_of
from piotool.firmware_programs import Memory, Placed, Rule, Sources, memory_of, placed_for, placements, with_label
from piotool.firmware_reach import Reach, is_read, reach_of
from piotool.firmware_recording import Recording

# What IN and IRQ have done in their first tick, they would do again as a pending word of the start.
IN, IRQ = 2, 6


@dataclass
class Options:
    """What the call asks for: which enabling counts, and whether inverted output enables are open drain."""

    start: int | None = None
    open_drain: bool = False


@dataclass
class MachineSetup:
    """A machine as a configuration says it, and the words that it is sent before the start and after it."""

    number: int
    placed: Placed
    start: str | None
    keys: dict[str, int | bool]
    before: list[int] = field(default_factory=list)
    later: list[int] = field(default_factory=list)
    is_drained: bool = False

    @property
    def start_place(self) -> int:
        """The word of its program at which it starts."""
        return self.placed.program.labels[self.start] if self.start else 0


@dataclass
class BlockSetup:
    """A block as a configuration says it."""

    index: int
    loads: list[Placed]
    machines: dict[int, MachineSetup]
    pins: dict[str, list[int]]


@dataclass
class Setup:
    """All that is written. A set-up whose programs aren't those of one source wants a source of its own."""

    blocks: list[BlockSetup]
    clock: int | None
    notes: list[str]
    wants_source: list[str] = field(default_factory=list)


def setup_of(recording: Recording, sources: Sources, options: Options) -> Setup:
    """The set-up that a recording comes to."""
    chip, setup = recording.chip, Setup([], recording.chip.clock, list(recording.notes))
    running = [block for block in chip.blocks if any(block.starts.values())]
    if not running:
        raise Fault(f"no machine is enabled: {recording.end or 'the recording has no such write'}{recording.advice}")
    most = max(len(starts) for block in running for starts in block.starts.values())
    if options.start is not None and options.start > most:
        raise Fault(f"--start {options.start}: no machine is enabled so often, but {most} times at most")
    chosen = [{number: start_of(number, starts, options) for number, starts in block.starts.items() if starts} for block in running]
    for block, starts in zip(running, chosen):
        setup.blocks.append(block_setup(block, starts, sources, setup, options, len(running) > 1))
    note_orders(setup, chosen)
    files = {sources.files[it.program.name] for block in setup.blocks for it in block.loads}
    if len(files) > 1:
        setup.wants_source.append(f"the programs are in {' and '.join(sorted(files))}, and a call takes one source")
    if recording.end:
        setup.notes.append(f"The recording ends: {recording.end}.")
    return setup


def signature(start: Start) -> tuple[object, ...]:
    """What a start has to agree in with another one of its machine, to be as good."""
    it = start.machine
    state = (it.pc, it.x, it.y, it.isr, it.osr, it.isr_count, it.osr_count, it.pending)
    return (*state, *it.registers.values())


def start_of(number: int, starts: list[Start], options: Options) -> Start:
    """The enabling of a machine that counts."""
    if options.start is not None:
        return starts[min(options.start, len(starts)) - 1]
    if len({signature(it) for it in starts}) > 1:
        raise Fault(f"machine {number} is enabled {len(starts)} times, each time set up otherwise: say which with --start N, 1 for the first")
    return starts[0]


def note_orders(setup: Setup, chosen: list[dict[int, Start]]) -> None:
    """Notes that machines which are enabled apart start together here."""
    orders = {start.order for starts in chosen for start in starts.values()}
    if len(orders) > 1:
        setup.notes.append("Machines that the firmware enables one after the other start together here: the time between isn't known.")


def block_setup(block: Block, starts: dict[int, Start], sources: Sources, setup: Setup, options: Options, is_pair: bool) -> BlockSetup:
    """A block's set-up."""
    last = max(starts.values(), key=lambda start: start.order)
    if last.pins.flags:
        flags = ", ".join(str(flag) for flag in range(8) if last.pins.flags >> flag & 1)
        raise Fault(f"flag {flags} of block {block.index} is up at the start: a configuration can't say it")
    found = placements(sources, last.memory)
    machines = {number: machine_setup(number, start, found, setup, last) for number, start in starts.items()}
    loads: list[Placed] = []
    for machine in machines.values():
        join_load(machine, loads)
    pins, notes = pins_of(block.index, last, options.open_drain, is_pair)
    setup.notes += notes
    return BlockSetup(block.index, sorted(loads, key=lambda it: it.at), machines, pins)


def join_load(machine: MachineSetup, loads: list[Placed]) -> None:
    """Puts a machine's program to those that are loaded: each once, and in one form for all its machines."""
    own = machine.placed
    for other in loads:
        if other.program.name == own.program.name:
            same = other.at == own.at and other.program.words == own.program.words and other.program.wrap == own.program.wrap
            if not same or other.program.rule != own.program.rule:
                raise Fault(
                    f"machine {machine.number} runs {own.program.name} with another place, wrap, side-set or first lines than a machine "
                    "before it: a configuration can't say both"
                )
            labels = other.program.labels | own.program.labels
            other.program = own.program = replace(own.program, labels=labels)
            return
        if other.at < own.at + len(own.program.words) and own.at < other.at + len(other.program.words):
            raise Fault(f"the programs {other.program.name} and {own.program.name} overlap in the memory")
    loads.append(own)


def refuse_what_no_key_says(number: int, start: Start, fields: dict[str, int | bool]) -> None:
    """Refuses what a machine's registers say and a configuration can't."""
    for name in ("out_sticky", "inline_out_en"):
        if fields[name]:
            raise Fault(f"machine {number} has {name.upper()} set: a configuration can't say it")
    if fields["join_rx"] and fields["join_tx"]:
        raise Fault(f"machine {number} joins both FIFOs: a configuration can't say it")
    if fields["divider"] == 0 and fields["fraction"]:
        raise Fault(f"machine {number} has a divider of 0 with a fraction: the datasheet doesn't say what that is")
    if fields["side_opt"] and not fields["side_count"] or fields["side_count"] > 5:
        raise Fault(f"machine {number} has a side-set of {fields['side_count']} bits with SIDE_EN {int(fields['side_opt'])}: no program has it")
    if fields["set_count"] > 5 or fields["out_count"] > 32:
        raise Fault(f"machine {number} has a mapping of more pins than there are: set_count is at most 5, out_count 32")
    it = start.machine
    if it.pending is not None and it.begun and it.pending >> 13 in (IN, IRQ):
        raise Fault(f"machine {number}: the word {it.pending:#06x} that is forced on it still waits after its first tick: a configuration can't say it")
    if start.machine.unsaid:
        raise Fault(f"machine {number}: {start.machine.unsaid[0]}, which the firmware alone doesn't say")


def machine_setup(number: int, start: Start, found: list[Placed], setup: Setup, last: Start) -> MachineSetup:
    """A machine's set-up."""
    state, fields = start.machine, start.machine.fields
    refuse_what_no_key_says(number, start, fields)
    opt = bool(fields["side_opt"])
    rule = Rule(int(fields["side_count"]) - opt, opt, bool(fields["side_pindirs"]))
    wrap = int(fields["wrap_bottom"]), int(fields["wrap_top"])
    placed = placed_for(number, state.pc, wrap, rule, found, last.names)
    placed = Placed(placed.program, placed.at)
    memory = memory_of(found)
    reach = reach_of(memory, state.pc, wrap, state.pending)
    stay_inside(number, placed, reach, wrap)
    fit_wrap(number, placed, reach, wrap, setup)
    fit_rule(number, placed, rule, setup)
    keys = {name: fields.get(name, default) for name, default in DEFAULTS.items()} | {"x": state.x, "y": state.y}
    machine = MachineSetup(number, placed, None, settled(keys, rule.bits), [*state.tx, *state.waiting])
    machine.later, machine.is_drained = list(start.later), start.is_drained or state.is_drained
    fit_start(machine, state.pc - placed.at, setup)
    fit_state(machine, memory, wrap, state)
    note_words(number, start, setup)
    return machine


def settled(keys: dict[str, int | bool], side_bits: int) -> dict[str, int | bool]:
    """The keys with the bases of empty mappings at 0, since they mean nothing."""
    empty = {"out_base": not keys["out_count"], "set_base": not keys["set_count"], "side_base": not side_bits}
    return {name: 0 if empty.get(name) else value for name, value in keys.items()}


def stay_inside(number: int, placed: Placed, reach: Reach, wrap: tuple[int, int]) -> None:
    """Refuses a machine that comes to words outside its program."""
    for address in sorted(reach.addresses):
        if not placed.covers(address):
            raise Fault(
                f"machine {number} can run out of the program {placed.program.name} to address {address}: its wrap is from {wrap[1]} to "
                f"{wrap[0]}, and a configuration can't say what is there"
            )


def fit_wrap(number: int, placed: Placed, reach: Reach, wrap: tuple[int, int], setup: Setup) -> None:
    """Gives the program the machine's wrap where the two differ and a machine may pass it."""
    if reach.same_wrap(wrap, placed.wrap()):
        return
    if not (placed.covers(wrap[0]) and placed.covers(wrap[1])):
        raise Fault(f"machine {number} wraps from {wrap[1]} to {wrap[0]}, outside its program {placed.program.name}")
    name, own = placed.program.name, placed.wrap()
    setup.wants_source.append(f"machine {number} wraps from {wrap[1]} to {wrap[0]}, and the source's {name} from {own[1]} to {own[0]}")
    placed.program = replace(placed.program, wrap=(wrap[0] - placed.at, wrap[1] - placed.at))


def fit_rule(number: int, placed: Placed, rule: Rule, setup: Setup) -> None:
    """Gives the program the machine's side-set where the two differ."""
    if rule.fits(placed.program):
        return
    own = placed.program.rule
    told = Rule(own["side_bits"], own["side_opt"], own["side_pindirs"])
    setup.wants_source.append(f"machine {number} has a side-set of {rule}, and the source's {placed.program.name} of {told}")
    placed.program = replace(placed.program, rule=rule.keys())


def fit_start(machine: MachineSetup, place: int, setup: Setup) -> None:
    """The label at which the machine starts; one is made where the word has none."""
    if place == 0:
        return
    program, machine.start = with_label(machine.placed.program, place)
    if program is not machine.placed.program:
        setup.wants_source.append(f"machine {machine.number} starts at word {place} of {program.name}, which has no label in the source")
        machine.placed.program = program


def fit_state(machine: MachineSetup, memory: Memory, wrap: tuple[int, int], it: Machine) -> None:
    """What ISR and OSR have, where the program may read it, and the word that still waits."""
    waits = it.pending is not None
    if waits or is_read(memory, it.pc, wrap, "isr"):
        machine.keys |= {"isr": it.isr, "isr_count": it.isr_count}
    if waits or machine.keys["autopull"] or is_read(memory, it.pc, wrap, "osr"):
        machine.keys |= {"osr": it.osr, "osr_count": it.osr_count}
    if it.pending is not None:
        machine.keys["pending"] = it.pending


def note_words(number: int, start: Start, setup: Setup) -> None:
    """Notes what isn't in the files of what the system does to a machine."""
    if start.machine.lost:
        setup.notes.append(f"Machine {number}: {start.machine.lost} words before the start find TX full and are lost.")
    if start.left_out:
        setup.notes.append(f"Machine {number}: {start.left_out} words come after a pause, and aren't in the stimulus.")
    for what in dict.fromkeys(start.changed):
        setup.notes.append(f"Machine {number}: while it runs {what}; that isn't in the set-up.")
