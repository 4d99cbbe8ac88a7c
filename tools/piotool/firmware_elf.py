"""A firmware's ELF: what lies where, and the names of its functions (by python3-pyelftools)."""

import struct
from bisect import bisect_right
from dataclasses import dataclass, field
from pathlib import Path
from typing import Any

from piotool.calls import Fault

ARM, ARMV6_M = "EM_ARM", (11, 12)
FLASH, RAM = 0x10000000, 0x20000000


@dataclass
class Firmware:
    """What an ELF loads, and its symbols."""

    path: str
    segments: list[tuple[int, bytes]] = field(default_factory=list)
    symbols: dict[str, int] = field(default_factory=dict)
    places: list[tuple[int, str]] = field(default_factory=list)
    programs: list[tuple[int, int, str]] = field(default_factory=list)

    def function_at(self, address: int) -> str:
        """The name of the function that an address is in."""
        place = bisect_right(self.places, (address, "\uffff")) - 1
        return self.places[place][1] if place >= 0 else f"{address:#010x}"

    def program_at(self, address: int) -> str | None:
        """The name of the program whose words or description are at an address."""
        for start, size, name in self.programs:
            if start <= address < start + size:
                return name
        return None

    def address_of(self, name: str) -> int:
        """The address of a function, or a fault that says what to do."""
        if name not in self.symbols:
            raise Fault(f"{self.path}: no function is called {name}: name the one to begin with by --entry")
        return self.symbols[name] & ~1


def read_firmware(path: str) -> Firmware:
    """The firmware in a file."""
    try:
        from elftools.common.exceptions import ELFError
        from elftools.elf.elffile import ELFFile
    except ImportError:
        raise Fault("the way elf needs python3-pyelftools: apt-get install python3-pyelftools") from None
    try:
        with Path(path).open("rb") as file:
            return firmware_of(path, ELFFile(file))
    except OSError as fault:
        raise Fault(f"{path}: {fault.strerror}") from None
    except Fault:
        raise
    except (ELFError, struct.error, UnicodeDecodeError, ValueError, KeyError, AttributeError, TypeError, IndexError):
        raise Fault(f"{path}: no whole ELF file: give the .elf that the linker wrote") from None


def firmware_of(path: str, elf: Any) -> Firmware:
    """What an ELF has for an RP2040."""
    if elf.header["e_machine"] != ARM or elf.elfclass != 32 or not elf.little_endian or architecture_of(elf) not in (None, *ARMV6_M):
        raise Fault(f"{path}: for another processor: the RP2040's is an ARMv6-M (Cortex-M0+)")
    firmware = Firmware(path)
    for segment in elf.iter_segments():
        if segment["p_type"] == "PT_LOAD" and segment["p_filesz"]:
            for address in {segment["p_paddr"], segment["p_vaddr"]}:
                firmware.segments.append((address, segment.data()))
    if not firmware.segments:
        raise Fault(f"{path}: nothing is loaded from it: give the .elf that the linker wrote, no object file")
    table = elf.get_section_by_name(".symtab")
    if table is None:
        raise Fault(f"{path}: it has no symbols: give the .elf as the linker wrote it, not stripped")
    for symbol in table.iter_symbols():
        read_symbol(firmware, symbol)
    firmware.places.sort()
    return firmware


def read_symbol(firmware: Firmware, symbol: Any) -> None:
    """One symbol: a function, a program's description or words, or another name."""
    name, value, kind = symbol.name, symbol["st_value"], symbol["st_info"]["type"]
    if not name or name.startswith("$") or symbol["st_shndx"] == "SHN_UNDEF":
        return
    firmware.symbols.setdefault(name, value)
    if kind == "STT_FUNC":
        firmware.places.append((value & ~1, name))
    for end in ("_program_instructions", "_program"):
        if kind == "STT_OBJECT" and name.endswith(end):
            firmware.programs.append((value, symbol["st_size"], name.removesuffix(end)))
            return


def architecture_of(elf: Any) -> int | None:
    """The architecture that the attributes name, or none."""
    section = elf.get_section_by_name(".ARM.attributes")
    for part in section.iter_subsections() if section else ():
        for group in part.iter_subsubsections():
            for attribute in group.iter_attributes("TAG_CPU_ARCH"):
                return int(attribute.value)
    return None
