"""The files of a set-up: the configuration, the stimulus, and where the user's source doesn't fit a source of the set-up's own."""

import json
from dataclasses import dataclass, field

from piotool.calls import Fault
from piotool.firmware_map import DEFAULTS
from piotool.firmware_programs import Placed, source_of
from piotool.firmware_setup import BlockSetup, MachineSetup, Setup

PIN_KEYS = ("high", "level", "out", "bypass", "own")
Table = dict[str, object]


@dataclass
class Tables:
    """What a configuration says, as its tables."""

    loads: list[Table]
    machines: list[Table]
    pins: Table = field(default_factory=dict)


def tables_of(block: BlockSetup) -> Tables:
    """The tables of a block."""
    loads = [load_table(it) for it in block.loads]
    return Tables(loads, [machine_table(it) for it in block.machines.values()], {key: pins for key, pins in block.pins.items() if pins})


def load_table(placed: Placed) -> Table:
    """A load; `at` where it isn't what its absence means."""
    table: Table = {"program": placed.program.name}
    return table if placed.at == (placed.program.origin or 0) else table | {"at": placed.at}


def machine_table(machine: MachineSetup) -> Table:
    """A machine; the keys that aren't what their absence means."""
    table: Table = {"id": machine.number, "program": machine.placed.program.name}
    if machine.start:
        table["start"] = machine.start
    return table | {key: value for key, value in machine.keys.items() if value != DEFAULTS.get(key)}


def head_of(setup: Setup, block: BlockSetup, origin: str) -> str:
    """The comment at the top of a configuration."""
    lines = [f"Block {block.index} as {origin} sets it up, written by piotool-setup, which proves nothing."]
    if setup.clock:
        lines.append(f"The system clock is {setup.clock / 1e6:g} MHz.")
    return "".join(f"# {line}\n" for line in lines + setup.notes)


def config_text(setup: Setup, block: BlockSetup, origin: str) -> str:
    """The text of a block's configuration."""
    tables = tables_of(block)
    parts = ["\n".join(["[[load]]", *assignments(table)]) for table in tables.loads]
    parts += ["\n".join(["[[machine]]", *assignments(table, setup.clock)]) for table in tables.machines]
    if tables.pins:
        parts.append("\n".join(["[pins]", *assignments(tables.pins)]))
    return head_of(setup, block, origin) + "\n\n".join(parts) + "\n"


def assignments(table: Table, clock: int | None = None) -> list[str]:
    """The lines of a table, with a machine's rate beside its divider."""
    lines = [f"{key} = {json.dumps(value)}" for key, value in table.items()]
    if clock and ("divider" in table or "fraction" in table):
        period = 256 * (int(str(table.get("divider", 1))) or 65536) + int(str(table.get("fraction", 0)))
        first = next(place for place, line in enumerate(lines) if line.startswith(("divider", "fraction")))
        lines[first] += f"  # {rate_of(clock, period)} ticks a second"
    return lines


def rate_of(clock: int, period: int) -> str:
    """The ticks in a second, of a period in 256ths of a clock."""
    whole, rest = divmod(clock * 256, period)
    return f"{clock * 256 / period:,.2f}" if rest else f"{whole:,}"


def stimulus_of(setup: Setup) -> str | None:
    """The text of the stimulus, or none where the system does nothing."""
    machines = [(4 * place + number, it) for place, block in enumerate(setup.blocks) for number, it in block.machines.items()]
    before = max(len(it.before) for _, it in machines)
    lines: list[str] = []
    if before:
        lines = ["version 2"] + [f"0 disable {number}" for number, _ in machines]
        for clock in range(before):
            lines += [f"{clock} tx {number} {it.before[clock]:#x}" for number, it in machines if clock < len(it.before)]
        lines += [f"{before} {word} {number}" for word in ("restart", "enable") for number, _ in machines]
    for number, it in machines:
        if it.later:
            lines.append(" ".join([f"{before} feed {number} 1", *(f"{word:#x}" for word in it.later)]))
        if it.is_drained:
            lines.append(f"{before} drain {number} 1")
    return "\n".join(["# Written by piotool-setup.", *lines]) + "\n" if lines else None


def own_source(setup: Setup) -> str | None:
    """The source that the set-up needs where the user's doesn't fit, or none."""
    if not setup.wants_source:
        return None
    programs = {it.program.name: it.program for block in setup.blocks for it in block.loads}
    for block in setup.blocks:
        for it in block.loads:
            if programs[it.program.name] is not it.program and programs[it.program.name] != it.program:
                raise Fault(f"the blocks run {it.program.name} in two forms: one source can't say both")
    return source_of(list(programs.values()), "Written by piotool-setup:\n" + "\n".join(f"{why}." for why in setup.wants_source))
