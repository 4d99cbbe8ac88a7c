"""Builds the firmwares of crosscheck/firmware/ with Debian's compiler for ARM, and the headers that the official assembler would make.

A header has what the SDK's users take from one: the words, the origin, the wrap, public symbols, and the function of the usual
configuration. It is made of `piotool asm`'s listing. With the SDK's source (PICO_SDK_PATH) a firmware can be built by CMake too;
the sources here have nothing that needs the shim.
"""

import os
import shutil
import subprocess
import sys
from pathlib import Path

HERE = Path(__file__).resolve().parent
TOP = HERE.parent
FIRMWARE = HERE / "firmware"
SHIM = FIRMWARE / "shim"
sys.path[:0] = [str(TOP / "tools")]

from piotool.programs import Program, listing_of, programs_of, read_listing  # noqa: E402

COMPILER = "arm-none-eabi-gcc"
FLAGS = "-mcpu=cortex-m0plus -mthumb -Os -g -Wall -Wextra -Werror -Wno-unused-function -Wno-unused-variable".split()
LINKER = ["-nostartfiles", "-T", str(SHIM / "link.ld")]


def has_compiler() -> bool:
    """Whether the compiler is there."""
    return shutil.which(COMPILER) is not None


def header_of(source: Path) -> str:
    """The header of a source's programs."""
    parts = ["#pragma once", '#include "hardware/pio.h"']
    public = {program.name: set(program.labels) for program in read_listing(listing_of(source))}
    return "\n".join(parts + [part_of(program, public[program.name]) for program in programs_of(source).values()]) + "\n"


def part_of(program: Program, public: set[str]) -> str:
    """What a header has of one program; of its labels those that are public."""
    name, rule, (bottom, top) = program.name, program.rule, program.wrap
    words = ", ".join(f"{word:#06x}" for word in program.words)
    count = rule["side_bits"] + rule["side_opt"]
    flags = [str(rule[key]).lower() for key in ("side_opt", "side_pindirs")]
    lines = [f"#define {name}_offset_{label} {place}u" for label, place in program.labels.items() if label in public]
    lines += [f"static const uint16_t {name}_program_instructions[] = {{{words}}};"]
    origin = -1 if program.origin is None else program.origin
    fields = f".instructions = {name}_program_instructions, .length = {len(program.words)}, .origin = {origin}"
    lines += [f"static const struct pio_program {name}_program = {{{fields}}};"]
    lines += [f"static inline pio_sm_config {name}_program_get_default_config(uint offset) {{"]
    lines += ["    pio_sm_config c = pio_get_default_sm_config();", f"    sm_config_set_wrap(&c, offset + {bottom}, offset + {top});"]
    lines += [f"    sm_config_set_sideset(&c, {count}, {flags[0]}, {flags[1]});"] * (count > 0)
    return "\n".join([*lines, "    return c;", "}"])


def built(main: Path, sources: list[Path], folder: Path, flags: list[str] | None = None) -> Path:
    """The ELF of a firmware, which stands beside the headers of its sources."""
    folder.mkdir(parents=True, exist_ok=True)
    for source in sources:
        (folder / f"{source.name}.h").write_text(header_of(source))
    elf, is_cpp = folder / f"{main.stem}.elf", main.suffix == ".cpp"
    compiler = [COMPILER.replace("gcc", "g++"), "-fno-exceptions", "-fno-rtti"] if is_cpp else [COMPILER, "-std=c11"]
    shim = folder / "sdk.o"
    run([COMPILER, "-std=c11", *FLAGS, "-c", SHIM / "sdk.c", "-o", shim])
    run([*compiler, *FLAGS, *(flags or []), "-I", SHIM, "-I", folder, main, shim, *LINKER, "-o", elf])
    return elf


def built_of_rust(main: Path, folder: Path) -> Path | None:
    """The ELF of a firmware in Rust, or none where there is no compiler of Rust that knows the processor and the words of `core`."""
    folder.mkdir(parents=True, exist_ok=True)
    made, shim, elf = folder / "main.o", folder / "sdk.o", folder / f"{main.stem}.elf"
    flags = "--edition 2021 --target thumbv6m-none-eabi --crate-type lib --emit obj -C panic=abort -C opt-level=s -g".split()
    # It has parts of `core` itself, which a compiler takes under this variable alone.
    env = os.environ | {"RUSTC_BOOTSTRAP": "1"}
    if not shutil.which("rustc") or subprocess.run(["rustc", *flags, "-o", made, main], capture_output=True, env=env).returncode:
        return None
    run([COMPILER, "-std=c11", *FLAGS, "-c", SHIM / "sdk.c", "-o", shim])
    run([COMPILER, *FLAGS, made, shim, *LINKER, "-o", elf])
    return elf


def run(words: list[object]) -> None:
    """A command that has to end well."""
    ended = subprocess.run([str(word) for word in words], capture_output=True, text=True)
    if ended.returncode:
        raise RuntimeError(f"{' '.join(map(str, words))}\n{ended.stderr}")
