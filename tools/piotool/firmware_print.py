"""The registers that a configuration means: as a table, as assertions in C, or as MicroPython's, for a test on the board.

The lines of the table are those of a dump: `piotool-setup registers` reads them.
"""

from dataclasses import dataclass
from typing import Any

from piotool import firmware_map as at
from piotool.calls import Fault, piotool
from piotool.firmware_files import rate_of
from piotool.firmware_programs import Memory, Placed, memory_of, read_sources, relocated, texts_of
from piotool.setups import read_tables

WHY = {
    "CTRL": "the machines that are enabled",
    "INPUT_SYNC_BYPASS": "pins without synchroniser",
    "DBG_PADOUT": "output levels at the start",
    "DBG_PADOE": "directions at the start",
}


@dataclass(frozen=True)
class Register:
    """A register with its value, and what is told of it."""

    offset: int
    value: int
    told: str = ""

    @property
    def name(self) -> str:
        """Its name."""
        return at.name_of(self.offset)


def text_of(config: str, sources: list[str], block: int, form: str | None, hertz: int | None) -> str:
    """What is shown of a configuration."""
    tables = checked_tables(config, sources)
    registers, rates = registers_of(tables, sources), rates_of(tables, hertz)
    if form == "c":
        return as_c(registers, block, config) + rates
    if form == "py":
        return as_python(registers, block, config)
    return "".join(f"{at.PIO[block] + it.offset:#010x} {it.value:#010x}  {it.name}{it.told and ': ' + it.told}\n" for it in registers) + rates


def checked_tables(config: str, sources: list[str]) -> dict[str, Any]:
    """The tables of a configuration, in which piotool finds no fault."""
    tables = read_tables(config)
    if len(sources) > 1:
        raise Fault("print takes one source: a configuration has one")
    if "own" not in tables["pins"]:
        status, _, told = piotool("shares", "--source", sources[0], "--config", config)
        if status:
            raise Fault(f"{config}: {told.removeprefix('piotool: ')}")
    return tables


def registers_of(tables: dict[str, Any], sources: list[str]) -> list[Register]:
    """All registers of a block, in order of their addresses."""
    programs, placed = read_sources(sources).programs, {}
    for table in tables["load"]:
        program = programs[table["program"]]
        placed[program.name] = Placed(program, table.get("at", program.origin or 0))
    memory = memory_of(list(placed.values()))
    pins = {key: sum(1 << pin for pin in set(tables["pins"].get(key, []))) for key in ("level", "out", "bypass")}
    enabled = sum(1 << table["id"] for table in tables["machine"])
    found = [(at.CTRL, enabled), (at.BYPASS, pins["bypass"]), (at.PAD_LEVELS, pins["level"]), (at.PAD_DIRECTIONS, pins["out"])]
    registers = [Register(offset, value, WHY[at.name_of(offset)]) for offset, value in found]
    for it in sorted(placed.values(), key=lambda it: it.at):
        words = [relocated(word, it.at) for word in it.program.words]
        for place, (word, told) in enumerate(zip(words, texts_of(words, it.program.rule))):
            registers.append(Register(at.MEMORY + 4 * (it.at + place), word, told))
    for table in sorted(tables["machine"], key=lambda it: it["id"]):
        registers += machine_registers(table, placed[table["program"]], memory)
    return registers


def machine_registers(table: dict[str, Any], placed: Placed, memory: Memory) -> list[Register]:
    """The registers of one machine, with the keys that its configuration has."""
    number, program = table["id"], placed.program
    fields = {key: table.get(key, default) for key, default in at.DEFAULTS.items()} | {
        "side_opt": program.rule["side_opt"],
        "side_pindirs": program.rule["side_pindirs"],
        "side_count": program.rule["side_bits"] + program.rule["side_opt"],
    }
    fields["wrap_bottom"], fields["wrap_top"] = placed.wrap()
    start = placed.at + (program.labels[table["start"]] if "start" in table else 0)
    values = at.registers_of(fields) | {"ADDR": start, "INSTR": table.get("pending", memory[start] or 0)}
    lines = []
    for register in sorted(values, key=lambda it: at.PLACES[it]):
        told = ", ".join(f"{key} {str(fields[key]).lower()}" for key in at.FIELDS.get(register, ()) if key in table)
        lines.append(Register(at.machine_offset(number, register), values[register], told))
    return lines


def rates_of(tables: dict[str, Any], hertz: int | None) -> str:
    """A line for each machine with the ticks in a second."""
    if not hertz:
        return ""
    lines = []
    for table in sorted(tables["machine"], key=lambda it: it["id"]):
        period = 256 * (table.get("divider", 1) or 65536) + table.get("fraction", 0)
        lines.append(f"# machine {table['id']}: {rate_of(hertz, period)} Hz, as ticks a second, at {hertz / 1e6:g} MHz\n")
    return "".join(lines)


def machine_of(register: Register) -> bool:
    """Whether a register is one of a machine's that stays as it was written."""
    return register.name.partition("_")[2] in at.SETUP_REGISTERS or register.offset == at.BYPASS


def as_c(registers: list[Register], block: int, config: str) -> str:
    """Assertions in C, of registers that stay as they were written. EXECCTRL's highest bit is a status."""
    lines = [f"// Written by piotool-setup from {config}: put it after the set-up, before the machines run.", "#include <assert.h>"]
    lines += ["#include <stdint.h>", "", "static inline void assert_setup(void) {"]
    for it in filter(machine_of, registers):
        mask = " & 0x7fffffffu" if it.name.endswith("EXECCTRL") else ""
        address = at.PIO[block] + it.offset
        lines.append(f"    assert((*(volatile uint32_t *){address:#010x}u{mask}) == {it.value:#010x}u); // {it.name}{it.told and ': ' + it.told}")
    return "\n".join([*lines, "}", ""])


def as_python(registers: list[Register], block: int, config: str) -> str:
    """Assertions for MicroPython."""
    lines = [f"# Written by piotool-setup from {config}: call it after the set-up.", "from machine import mem32", "", ""]
    lines += ["def assert_setup():"]
    for it in filter(machine_of, registers):
        mask = 0x7FFFFFFF if it.name.endswith("EXECCTRL") else 0xFFFFFFFF
        address = at.PIO[block] + it.offset
        lines.append(f"    assert mem32[{address:#010x}] & {mask:#010x} == {it.value:#010x}  # {it.name}{it.told and ': ' + it.told}")
    return "\n".join([*lines, ""])
