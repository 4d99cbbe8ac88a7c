"""Reads a dump of registers, as gdb (`x/wx`), OpenOCD (`mdw`) or `piotool-setup print` write them, into a recording.

INSTR_MEM can't be read on an RP2040, so the words come from the sources, placed by the wrap and the side-set of each machine or by
the call. SMx_INSTR, the word at PC, is compared. X, Y, ISR, OSR and what FIFOs hold can't be read.
"""

import re
from dataclasses import replace
from typing import Callable

from piotool import firmware_map as at
from piotool.calls import Fault, read_text
from piotool.firmware_map import fields_of
from piotool.firmware_programs import Placed, Rule, Sources, relocated
from piotool.firmware_recording import Recording

LINE = re.compile(r"\s*(0x)?([0-9a-fA-F]{8})(?:\s*<[^>]*>)?\s*:?\s+(.*)")
VALUE = re.compile(r"(?:0x)?([0-9a-fA-F]{1,8})$")
NEEDED = (at.CTRL, at.BYPASS, at.PAD_LEVELS, at.PAD_DIRECTIONS)
UNREAD = "X, Y, ISR, OSR and the words in FIFOs can't be read from a chip: they are as after a reset here."
HOW = "in gdb, `x/wx {ctrl:#010x}`, `x/6wx {irq:#010x}` and `x/24wx {machines:#010x}` show what is needed"


def read_dump(path: str) -> dict[int, int]:
    """The words of a dump by address."""
    words: dict[int, int] = {}
    for line in read_text(path).splitlines():
        if found := LINE.match(line):
            for place, word in enumerate(values_in(found[3])):
                words[int(found[2], 16) + 4 * place] = word
    if not words:
        raise Fault(f"{path}: no line has an address and a value, as 0x502000c8: 0x00010000")
    return words


def values_in(text: str) -> list[int]:
    """The values at the beginning of a text: what follows them is a comment. A value has eight digits, or 0x."""
    found = []
    for word in text.split():
        value = VALUE.match(word)
        if not value or not (word.startswith("0x") or len(word) == 8):
            break
        found.append(int(value[1], 16))
    return found


def recorded(path: str, sources: Sources, loads: list[str], hertz: int | None) -> Recording:
    """The recording that leaves a chip as the dump has it."""
    words, recording = read_dump(path), Recording()
    if hertz:
        recording.clock(hertz)
    for address, value in sorted(words.items()):
        if at.IO_BANK <= address < at.IO_BANK + 8 * at.PINS and address & 4:
            recording.write(address, value)
        elif at.PADS_BANK + 4 <= address < at.PADS_BANK + 4 + 4 * at.PINS:
            recording.write(address, value)
    if not any(at.PADS_BANK <= address < at.PADS_BANK + 0x100 for address in words):
        recording.note("The dump has no pads: no pull-up is in `high`.")
    recording.chip.pads.are_known = any(at.IO_BANK <= address < at.IO_BANK + 8 * at.PINS for address in words)
    forced = dict(load_of(load, sources) for load in loads)
    found = [index for index, base in enumerate(at.PIO) if any(base <= address < base + 0x1000 for address in words)]
    if not found:
        raise Fault(f"{path}: no address is a PIO block's: {how(0)}")
    for index in found:
        replay_block(path, words, index, sources, forced, recording)
    if not any(any(block.starts.values()) for block in recording.chip.blocks):
        raise Fault(f"{path}: no machine is enabled or set up in it: halt the chip after the firmware has done that")
    recording.note(UNREAD)
    return recording


def how(index: int) -> str:
    """What to do for a dump that is whole."""
    base = at.PIO[index]
    return HOW.format(ctrl=base + at.CTRL, irq=base + at.IRQ, machines=base + at.MACHINES)


def load_of(load: str, sources: Sources) -> tuple[str, int]:
    """A program and its address, as the call says them."""
    name, mark, place = load.partition("@")
    if not name or not mark or not place.isdecimal() or int(place) > 31:
        raise Fault(f"--load {load}: it is a program's name, @, and an address from 0 to 31")
    if name not in sources.programs:
        raise Fault(f"--load {load}: no source has a program {name}")
    return name, int(place)


def replay_block(path: str, words: dict[int, int], index: int, sources: Sources, forced: dict[str, int], recording: Recording) -> None:
    """Writes what leaves one block as the dump has it."""
    base = at.PIO[index]

    def word(offset: int) -> int:
        if base + offset not in words:
            raise Fault(f"{path}: {base + offset:#010x} ({at.name_of(offset)}) isn't in it: {how(index)}")
        return words[base + offset]

    for offset in NEEDED:
        word(offset)
    enabled = word(at.CTRL) & 15
    if not enabled:
        enabled = sum(is_set_up(words, base, number) << number for number in range(4))
        recording.note(f"No machine of block {index} is enabled in the dump: those whose registers aren't as after a reset are taken.")
    machines = {number: machine_words(number, word) for number in range(4) if enabled >> number & 1}
    placed = {number: placed_by(number, registers, sources, forced) for number, registers in machines.items()}
    for it in placed.values():
        recording.program(it.program.name)
        for place, code in enumerate(it.program.words):
            recording.write(base + at.MEMORY + 4 * (it.at + place), relocated(code, it.at))
    for number, registers in machines.items():
        for register in at.SETUP_REGISTERS:
            recording.write(base + at.machine_offset(number, register), registers[register])
        recording.write(base + at.machine_offset(number, "INSTR"), registers["ADDR"])
    # What forced jumps wrote to pins is overwritten: the pins are those of the dump.
    recording.write(base + at.BYPASS, word(at.BYPASS))
    set_pins(recording, index, word(at.PAD_LEVELS), word(at.PAD_DIRECTIONS))
    recording.write(base + at.CTRL, enabled)


def is_set_up(words: dict[int, int], base: int, number: int) -> bool:
    """Whether a machine's registers aren't as after a reset."""
    found = {register: words.get(base + at.machine_offset(number, register)) for register in at.SETUP_REGISTERS}
    return any(value is not None and value != at.AFTER_RESET[register] for register, value in found.items())


def machine_words(number: int, word: Callable[[int], int]) -> dict[str, int]:
    """A machine's registers. The highest bit of EXECCTRL is a status."""
    registers = {register: word(at.machine_offset(number, register)) for register in at.PLACES}
    return registers | {"EXECCTRL": registers["EXECCTRL"] & 0x7FFFFFFF}


def placed_by(number: int, registers: dict[str, int], sources: Sources, forced: dict[str, int]) -> Placed:
    """The program that a machine runs, by its wrap, side-set and word at PC, or by the call."""
    fields, pc = fields_of(registers), registers["ADDR"] & 31
    opt = bool(fields["side_opt"])
    rule = Rule(int(fields["side_count"]) - opt, opt, bool(fields["side_pindirs"]))
    wrap = fields["wrap_bottom"], fields["wrap_top"]
    near = []
    for program in sources.programs.values():
        place = forced.get(program.name, int(wrap[0]) - program.wrap[0])
        it = Placed(program, place)
        is_said = program.name in forced and it.covers(pc)
        if place < 0 or place + len(program.words) > 32 or not it.covers(pc):
            continue
        if is_said or it.wrap() == wrap and rule.fits(program):
            near.append(it)
    fitting = [it for it in near if relocated(it.program.words[pc - it.at], it.at) == registers["INSTR"] & 0xFFFF]
    if near and not fitting:
        it = near[0]
        has = relocated(it.program.words[pc - it.at], it.at)
        raise Fault(
            f"machine {number} has the word {registers['INSTR'] & 0xFFFF:#06x} at address {pc}, and {it.program.name} has {has:#06x} there: "
            "give the sources that the chip runs"
        )
    if len({(it.program.name, it.at) for it in fitting}) != 1:
        what = "no program of the sources has" if not fitting else " and ".join(it.program.name for it in fitting) + " have"
        raise Fault(f"machine {number}: {what} its wrap from {wrap[1]} to {wrap[0]} and its side-set: say which is where by --load NAME@AT")
    return replace(fitting[0])


def set_pins(recording: Recording, index: int, levels: int, directions: int) -> None:
    """Leaves the block's pins as the dump has them. No register writes them but by forced words, 0 to 31, five pins each."""
    base, spare = at.PIO[index], 3
    kept = {register: recording.chip.blocks[index].machines[spare].registers[register] for register in at.SETUP_REGISTERS}
    for first in range(0, 32, 5):
        count = min(5, 32 - first)
        recording.write(base + at.machine_offset(spare, "EXECCTRL"), 0)
        recording.write(base + at.machine_offset(spare, "PINCTRL"), count << 26 | first << 5)
        recording.write(base + at.machine_offset(spare, "INSTR"), 0xE000 | levels >> first & 31)
        recording.write(base + at.machine_offset(spare, "INSTR"), 0xE080 | directions >> first & 31)
    for register in ("EXECCTRL", "PINCTRL"):
        recording.write(base + at.machine_offset(spare, register), kept[register])
